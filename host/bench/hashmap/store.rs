//! The cards and their faults. Each operation writes its answer first, and has an effect only if the answer fits.
use crate::job::Out;
use frames::{CARDS, FAULTS};
use std::collections::hash_map::{Entry, HashMap};

/// A serial as it travels: the unused bytes are zero, and since no byte of a serial is, they tell its length too.
pub type Serial = [u8; 16];

#[derive(Clone, Copy)]
pub struct Fault {
    pub day: u32,
    pub code: u32,
}

impl Fault {
    fn in_range(self) -> bool {
        (1..=65_535).contains(&self.day) && (1..=9_999).contains(&self.code)
    }
}

/// A history stands as it is listed: by rising day, those of one day as filed. The tally is of entries, withdrawals and filings.
#[derive(Default)]
pub struct Store {
    cards: HashMap<Serial, Vec<Fault>>,
    faults: usize,
    pub tally: [u64; 3],
}

impl Store {
    pub fn open(&mut self) {
        self.cards = HashMap::new();
        self.faults = 0;
    }

    /// Each operation tells whether its answer fits.
    pub fn enter(&mut self, serial: Serial, out: &mut Out) -> bool {
        let full = self.cards.len() == CARDS as usize;
        match self.cards.entry(serial) {
            Entry::Occupied(_) => out.refuse(6),
            Entry::Vacant(_) if full => out.refuse(8),
            Entry::Vacant(place) => {
                let fits = out.answer(0, 0, &[]);
                if fits {
                    place.insert(Vec::new());
                    self.tally[0] += 1;
                }
                fits
            }
        }
    }

    pub fn withdraw(&mut self, serial: Serial, out: &mut Out) -> bool {
        match self.cards.entry(serial) {
            Entry::Vacant(_) => out.refuse(7),
            Entry::Occupied(card) => {
                let count = card.get().len();
                let fits = out.answer(0, count, card.get());
                if fits {
                    card.remove();
                    self.faults -= count;
                    self.tally[1] += 1;
                }
                fits
            }
        }
    }

    pub fn file(&mut self, serial: Serial, fault: Fault, out: &mut Out) -> bool {
        if !fault.in_range() {
            return out.refuse(5);
        }
        match self.cards.get_mut(&serial) {
            None => out.refuse(7),
            Some(_) if self.faults == FAULTS as usize => out.refuse(9),
            Some(history) => {
                let fits = out.answer(0, history.len() + 1, &[]);
                if fits {
                    let behind = history.partition_point(|filed| filed.day <= fault.day);
                    history.insert(behind, fault);
                    self.faults += 1;
                    self.tally[2] += 1;
                }
                fits
            }
        }
    }

    pub fn show(&self, serial: Serial, out: &mut Out) -> bool {
        match self.cards.get(&serial) {
            None => out.refuse(7),
            Some(history) => out.answer(0, history.len(), history),
        }
    }
}
