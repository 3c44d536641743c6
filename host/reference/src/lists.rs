//! A store as lists, and the steps that change it. A step here is taken only where the operation is accepted.
use crate::rules::{self, Bounds, State};
use crate::serial::Serial;
use std::mem;

/// How many cards and faults a store can hold.
#[derive(Clone, Copy, Debug, PartialEq, Eq)]
pub struct Limits {
    pub cards: u32,
    pub faults: u32,
}

impl Limits {
    pub fn in_range(self) -> bool {
        (1..=1_024).contains(&self.cards) && (1..=2_048).contains(&self.faults)
    }
}

/// The format of a store, which no call changes. The first one has no bounds of its own.
#[derive(Clone, Copy, Debug, PartialEq, Eq)]
pub enum Format {
    One,
    Two(Bounds),
}

impl Format {
    pub fn bounds(self) -> Bounds {
        match self {
            Format::One => Bounds::USUAL,
            Format::Two(bounds) => bounds,
        }
    }
}

/// What is filed: a day and a code.
#[derive(Clone, Copy, Debug, PartialEq, Eq)]
pub struct Entry {
    pub day: u32,
    pub code: u32,
}

impl Entry {
    pub fn in_range(self) -> bool {
        (1..=65_535).contains(&self.day) && (1..=9_999).contains(&self.code)
    }
}

/// A filed fault, and the cell that it stands in.
#[derive(Clone, Debug, PartialEq, Eq)]
pub struct Fault {
    pub cell: u32,
    pub entry: Entry,
}

/// A held card, the cell that it stands in, and its faults in filing order.
#[derive(Clone, Debug, PartialEq, Eq)]
pub struct Card {
    pub cell: u32,
    pub serial: Serial,
    pub faults: Vec<Fault>,
}

impl Card {
    /// What is listed of the card: its faults by rising day, those of one day as filed. The card keeps them in filing order.
    pub fn listing(&self) -> Vec<Entry> {
        let mut listing: Vec<Entry> = self.faults.iter().map(|fault| fault.entry).collect();
        // This sort leaves equal days in their order; the code plays no part.
        listing.sort_by_key(|entry| entry.day);
        listing
    }
}

/// Buckets are lists of cards in the order of their chains; free cells stand in the order in which they will be taken.
#[derive(Clone, Debug, PartialEq, Eq)]
pub struct Store {
    pub format: Format,
    pub limits: Limits,
    pub state: State,
    pub buckets: Vec<Vec<Card>>,
    pub free_cards: Vec<u32>,
    pub free_faults: Vec<u32>,
}

/// Where a search ended: the bucket, the card's place in it counted from 0, and how many cards were compared.
#[derive(Clone, Copy, Debug, PartialEq, Eq)]
pub struct Search {
    pub bucket: usize,
    pub place: Option<usize>,
    pub comparisons: usize,
}

impl Store {
    /// A store as Open makes it, of format 2 whatever its bounds.
    pub fn fresh(limits: Limits, bounds: Bounds) -> Store {
        Store {
            format: Format::Two(bounds),
            limits,
            state: State::FRESH,
            buckets: vec![Vec::new(); State::FRESH.buckets() as usize],
            free_cards: (1..=limits.cards).collect(),
            free_faults: (1..=limits.faults).collect(),
        }
    }

    /// Every held card, by bucket and then by chain.
    pub fn cards(&self) -> impl Iterator<Item = &Card> {
        self.buckets.iter().flatten()
    }

    pub fn cards_held(&self) -> usize {
        self.cards().count()
    }

    pub fn faults_held(&self) -> usize {
        self.cards().map(|card| card.faults.len()).sum()
    }

    /// The bucket where a card of this serial belongs.
    pub fn home(&self, serial: &Serial) -> usize {
        rules::address(serial.code(), self.state.maxp, self.state.p) as usize
    }

    pub fn search(&self, serial: &Serial) -> Search {
        let bucket = self.home(serial);
        let chain = &self.buckets[bucket];
        let place = chain.iter().position(|card| card.serial == *serial);
        let comparisons = place.map_or(chain.len(), |before| before + 1);
        Search { bucket, place, comparisons }
    }

    /// A new card joins the end of its bucket.
    pub fn place(&mut self, bucket: usize, serial: Serial) {
        let cell = self.free_cards.remove(0);
        self.buckets[bucket].push(Card { cell, serial, faults: Vec::new() });
    }

    /// A new fault joins the end of a card's history.
    pub fn file(&mut self, bucket: usize, place: usize, entry: Entry) {
        let cell = self.free_faults.remove(0);
        self.buckets[bucket][place].faults.push(Fault { cell, entry });
    }

    /// A card leaves its bucket; its cell, and its fault cells in their order, are the next to be taken.
    pub fn remove(&mut self, bucket: usize, place: usize) {
        let card = self.buckets[bucket].remove(place);
        self.free_cards.insert(0, card.cell);
        self.free_faults.splice(0..0, card.faults.iter().map(|fault| fault.cell));
    }

    /// One split, if the load calls for it. Gives how many cards were scanned.
    pub fn grow(&mut self) -> usize {
        if !rules::splits(self.cards_held(), self.state, self.format.bounds()) {
            return 0;
        }
        let before = self.state;
        let old = mem::take(&mut self.buckets[before.p as usize]);
        let scanned = old.len();
        let (moved, stayed) = old.into_iter().partition(|card| rules::moves(card.serial.code(), before));
        self.buckets[before.p as usize] = stayed;
        self.buckets.push(moved);
        self.state = before.grown();
        scanned
    }

    /// One contraction, if the load calls for it. Gives how many cards were scanned.
    pub fn shrink(&mut self) -> usize {
        if !rules::contracts(self.cards_held(), self.state, self.format.bounds()) {
            return 0;
        }
        self.state = self.state.shrunk();
        let last = self.buckets.pop().expect("more than 16 buckets");
        let scanned = last.len();
        self.buckets[self.state.p as usize].extend(last);
        scanned
    }
}
