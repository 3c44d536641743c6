//! What a store is opened with, and what it holds.
use crate::sizes::store_words;

/// How many cards and faults a store can hold.
#[derive(Clone, Copy, Debug, PartialEq, Eq, Hash)]
pub struct Limits {
    /// The most cards, 1 to 1,024.
    pub cards: u32,
    /// The most faults of all cards together, 1 to 2,048.
    pub faults: u32,
}

impl Limits {
    /// How many words such a store has.
    pub const fn words(self) -> usize {
        store_words(self.cards, self.faults)
    }
}

/// How many cards and faults a store holds.
#[derive(Clone, Copy, Debug, PartialEq, Eq, Hash)]
pub struct Held {
    /// The cards.
    pub cards: u32,
    /// The faults of all cards together.
    pub faults: u32,
}

/// How full and how empty the table of a store may get, in cards for each bucket. `docs/BOUNDS.md` helps to choose; the
/// default, 4 and 2, is right for who has no wish.
#[derive(Clone, Copy, Debug, PartialEq, Eq, Hash)]
pub struct Bounds {
    /// After an entry that makes more cards for each bucket than this, a bucket is split. 2 to 10.
    pub upper: u32,
    /// After a withdrawal that leaves fewer cards for each bucket than this, two are joined. At least 1, and at most half
    /// of the upper bound.
    pub lower: u32,
}

impl Default for Bounds {
    fn default() -> Bounds {
        Bounds { upper: 4, lower: 2 }
    }
}
