//! The sizes that the rules name, and what follows from them.

/// The scratch that a call needs, in bytes. More may be lent; only these are touched.
pub const SCRATCH: usize = 384;

/// The most cards that a store can be opened for. It can be opened for 1 at least.
pub const MOST_CARDS: u32 = 1_024;

/// The most faults that a store can be opened for. It can be opened for 1 at least.
pub const MOST_FAULTS: u32 = 2_048;

/// The words of the largest store.
pub const MOST_WORDS: usize = store_words(MOST_CARDS, MOST_FAULTS);

/// The most bytes of a serial.
pub const SERIAL: usize = 16;

/// The most bytes of a job's text.
pub const LONGEST_JOB: usize = 16_384;

/// The most bytes that the answer to one line of a job can have, its LF included: four numbers of at most 2, 4, 4 and 4
/// digits with three spaces between them, and a space, a day, a colon and a code for each fault of the fullest store.
pub const LONGEST_ANSWER: usize = 18 + 11 * MOST_FAULTS as usize;

/// The most stores of a report.
pub const MOST_STORES: usize = 8;

/// The most bytes that a report can have.
pub const LONGEST_REPORT: usize = 549_989;

/// What [`address`](crate::address) gives where maxp and p are no state of a table.
pub const NO_ADDRESS: u32 = u32::MAX;

/// How many words a store for so many cards and faults has: 288 + 9 × cards + 3 × faults.
///
/// ```
/// let mut words = [0; card_store::store_words(64, 128)];
/// let mut scratch = [0; card_store::SCRATCH];
/// # let _ = (&mut words, &mut scratch);
/// assert_eq!(card_store::store_words(1, 1), 300);
/// ```
pub const fn store_words(cards: u32, faults: u32) -> usize {
    288 + 9 * cards as usize + 3 * faults as usize
}
