//! What the methods of a store give.
use crate::exported::Answer;
use std::fmt;
use std::slice;
use std::vec;

/// A fault of a card. It is written as in the answers of a job: the day, a colon, the code.
///
/// ```
/// use card_store::Fault;
///
/// assert_eq!(Fault { day: 100, code: 12 }.to_string(), "100:12");
/// ```
#[derive(Clone, Copy, Debug, PartialEq, Eq, Hash)]
pub struct Fault {
    /// The day, 1 to 65,535.
    pub day: u32,
    /// The fault code, 1 to 9,999.
    pub code: u32,
}

impl fmt::Display for Fault {
    fn fmt(&self, out: &mut fmt::Formatter<'_>) -> fmt::Result {
        write!(out, "{}:{}", self.day, self.code)
    }
}

/// What a done call has counted.
#[derive(Clone, Copy, Debug, PartialEq, Eq)]
pub struct Counts {
    /// The cards that were compared: the card's place in its bucket's chain, from 1, if it was held; else the chain's
    /// length.
    pub comparisons: u32,
    /// The cards that a split or a contraction of the table went through; 0 if there was none.
    pub scanned: u32,
    /// The card's faults, with a new one; 0 for a card that was entered.
    pub faults: u32,
}

impl Counts {
    /// Those of a done call.
    pub(crate) fn of(answer: Answer) -> Counts {
        let Answer { number: _, comparisons, scanned, faults } = answer;
        Counts { comparisons, scanned, faults }
    }
}

/// The faults of a card by rising day, those of one day in the order of filing, and what the call has counted. A loop over
/// it, lent or handed over, is one over the faults.
///
/// ```
/// use card_store::{Fault, Limits, Refusal, Store};
///
/// let mut store = Store::new(Limits { cards: 8, faults: 8 })?;
/// store.enter("BRK-17")?;
/// store.file("BRK-17", 140, 12)?;
/// store.file("BRK-17", 133, 30)?;
///
/// let listing = store.show("BRK-17")?;
/// for fault in &listing {
///     println!("day {}, code {}", fault.day, fault.code);
/// }
/// let faults: Vec<Fault> = listing.into_iter().collect();
/// assert_eq!(faults, [Fault { day: 133, code: 30 }, Fault { day: 140, code: 12 }]);
/// # Ok::<(), Refusal>(())
/// ```
#[derive(Clone, Debug, PartialEq, Eq)]
pub struct Listing {
    /// The faults.
    pub faults: Vec<Fault>,
    /// What was counted.
    pub counts: Counts,
}

impl Listing {
    /// The listing that a done call has written to the front of the room.
    pub(crate) fn read(room: &[u32], answer: Answer) -> Listing {
        let pairs = room.chunks_exact(2).take(answer.faults as usize);
        let faults = pairs.map(|pair| Fault { day: pair[0], code: pair[1] }).collect();
        Listing { faults, counts: Counts::of(answer) }
    }
}

impl IntoIterator for Listing {
    type Item = Fault;
    type IntoIter = vec::IntoIter<Fault>;

    fn into_iter(self) -> vec::IntoIter<Fault> {
        self.faults.into_iter()
    }
}

impl<'a> IntoIterator for &'a Listing {
    type Item = &'a Fault;
    type IntoIter = slice::Iter<'a, Fault>;

    fn into_iter(self) -> slice::Iter<'a, Fault> {
        self.faults.iter()
    }
}

/// The answers of a job, or a report: digits, spaces, colons and LF, so that each byte is a letter.
pub(crate) fn letters(bytes: &[u8]) -> String {
    bytes.iter().copied().map(char::from).collect()
}
