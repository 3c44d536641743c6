//! The words of a store. Each part is written whole, and the store is the parts one behind another.
use crate::lists::{Card, Format, Limits, Store};
use crate::rules::Bounds;
use std::iter;

pub const HEADER_WORDS: usize = 16;
pub const SEGMENTS: usize = 16;
pub const SEGMENT_WORDS: usize = 16;
pub const BUCKETS: usize = SEGMENTS * SEGMENT_WORDS;
pub const CARD_WORDS: usize = 9;
pub const FAULT_WORDS: usize = 3;

/// Where each part starts, and where the last one ends.
#[derive(Clone, Copy, Debug, PartialEq, Eq)]
pub struct Offsets {
    pub directory: usize,
    pub segments: usize,
    pub cards: usize,
    pub faults: usize,
    pub end: usize,
}

impl Offsets {
    pub fn of(limits: Limits) -> Offsets {
        let directory = HEADER_WORDS;
        let segments = directory + SEGMENTS;
        let cards = segments + BUCKETS;
        let faults = cards + CARD_WORDS * limits.cards as usize;
        let end = faults + FAULT_WORDS * limits.faults as usize;
        Offsets { directory, segments, cards, faults, end }
    }

    /// As words 9 to 13 have them.
    pub fn words(self) -> [u32; 5] {
        [self.directory, self.segments, self.cards, self.faults, self.end].map(|offset| offset as u32)
    }
}

impl Format {
    /// The format word, and word 14.
    pub fn words(self) -> [u32; 2] {
        match self {
            Format::One => [1, 0],
            Format::Two(bounds) => [2, 256 * bounds.upper + bounds.lower],
        }
    }

    /// The one format that has these two words, if there is any.
    pub fn read(words: [u32; 2]) -> Option<Format> {
        let mut known = iter::once(Format::One).chain(Bounds::all().map(Format::Two));
        known.find(|format| format.words() == words)
    }
}

/// The words of a store.
pub fn encode(store: &Store) -> Vec<u32> {
    [header(store), directory(store.buckets.len()), segments(store), card_cells(store), fault_cells(store)].concat()
}

fn header(store: &Store) -> Vec<u32> {
    let [format, bounds] = store.format.words();
    let limits = [format, store.limits.cards, store.limits.faults];
    let state = [store.state.maxp, store.state.p];
    let held = [store.cards_held() as u32, store.faults_held() as u32];
    let free = [first(&store.free_cards), first(&store.free_faults)];
    let offsets = Offsets::of(store.limits).words();
    [&limits[..], &state, &held, &free, &offsets, &[bounds, 0]].concat()
}

/// The directory of a table with this many buckets: a segment is in use when its first bucket is there.
pub fn directory(buckets: usize) -> Vec<u32> {
    let start = HEADER_WORDS + SEGMENTS;
    (0..SEGMENTS)
        .map(|k| SEGMENT_WORDS * k)
        .map(|bucket| if bucket < buckets { (start + bucket) as u32 } else { 0 })
        .collect()
}

fn segments(store: &Store) -> Vec<u32> {
    let heads = store.buckets.iter().map(|chain| chain.first().map_or(0, |card| card.cell));
    heads.chain(iter::repeat(0)).take(BUCKETS).collect()
}

fn card_cells(store: &Store) -> Vec<u32> {
    let mut cells = vec![[0; CARD_WORDS]; store.limits.cards as usize];
    for chain in &store.buckets {
        let numbers: Vec<u32> = chain.iter().map(|card| card.cell).collect();
        for (card, (cell, next)) in chain.iter().zip(links(&numbers)) {
            cells[index(cell)].copy_from_slice(&card_words(card, next));
        }
    }
    for (cell, next) in links(&store.free_cards) {
        cells[index(cell)][0] = next;
    }
    cells.concat()
}

fn card_words(card: &Card, next: u32) -> Vec<u32> {
    let first = card.faults.first().map_or(0, |fault| fault.cell);
    let last = card.faults.last().map_or(0, |fault| fault.cell);
    [&[next, card.serial.bytes().len() as u32][..], &card.serial.words(), &[first, last, card.faults.len() as u32]]
        .concat()
}

fn fault_cells(store: &Store) -> Vec<u32> {
    let mut cells = vec![[0; FAULT_WORDS]; store.limits.faults as usize];
    for card in store.cards() {
        let numbers: Vec<u32> = card.faults.iter().map(|fault| fault.cell).collect();
        for (fault, (cell, next)) in card.faults.iter().zip(links(&numbers)) {
            cells[index(cell)] = [next, fault.entry.day, fault.entry.code];
        }
    }
    for (cell, next) in links(&store.free_faults) {
        cells[index(cell)][0] = next;
    }
    cells.concat()
}

/// Each cell of a chain with the one behind it, 0 behind the last.
fn links(chain: &[u32]) -> impl Iterator<Item = (u32, u32)> + '_ {
    let behind = chain.iter().skip(1).copied().chain(iter::once(0));
    chain.iter().copied().zip(behind)
}

fn first(chain: &[u32]) -> u32 {
    chain.first().copied().unwrap_or(0)
}

/// Cells count from 1.
fn index(cell: u32) -> usize {
    cell as usize - 1
}
