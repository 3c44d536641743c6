//! Why something was refused.
use std::error::Error;
use std::fmt;

/// Why a call, a job or a report was refused. What is refused changes no word of a store.
///
/// Each has the number that the rules give it, which a C program and the answers of a job have too. Where several apply,
/// the first that is tested is given: `docs/RULES.md` 6 has the order. What a refused call has counted on its way, the
/// comparisons and the faults that did not fit, is in the whole answers of [`calls`](crate::calls).
///
/// ```
/// use card_store::Refusal;
///
/// assert_eq!(Refusal::AlreadyHeld.number(), 6);
/// assert_eq!(Refusal::of(6), Some(Refusal::AlreadyHeld));
/// assert_eq!(Refusal::of(0), None);
/// assert_eq!(Refusal::AlreadyHeld.to_string(), "a card with this serial is held already");
/// ```
#[derive(Clone, Copy, Debug, PartialEq, Eq, PartialOrd, Ord, Hash)]
#[repr(u32)]
pub enum Refusal {
    /// The store is to be opened for other than 1 to 1,024 cards and 1 to 2,048 faults.
    BadLimits = 1,
    /// The words to be opened are not exactly as many as the limits ask for.
    BadLength = 2,
    /// The words are not those of a sound store.
    NotSound = 3,
    /// The serial is not 1 to 16 digits, capital letters and hyphens.
    BadSerial = 4,
    /// The day is not 1 to 65,535, or the code is not 1 to 9,999.
    BadFault = 5,
    /// A card with this serial is held already.
    AlreadyHeld = 6,
    /// No card with this serial is held.
    NotHeld = 7,
    /// As many cards are held as the store was opened for.
    CardsFull = 8,
    /// As many faults are held as the store was opened for.
    FaultsFull = 9,
    /// The room or the output is too short. No method of a store gives it; the functions of `calls` do.
    ShortRoom = 10,
    /// Fewer than 384 bytes of scratch are lent.
    ShortScratch = 11,
    /// A line of a job is not well formed. It stands in the answer of such a line; no call gives it.
    BadLine = 12,
    /// The text of a job has more than 16,384 bytes.
    LongText = 13,
    /// A report is asked for over no store, or over more than eight.
    BadStores = 14,
    /// The upper load bound is not 2 to 10, or the lower one is 0 or more than half of it.
    BadBounds = 15,
}

impl Refusal {
    /// All of them, from the lowest number to the highest.
    pub const ALL: [Refusal; 15] = [
        Refusal::BadLimits,
        Refusal::BadLength,
        Refusal::NotSound,
        Refusal::BadSerial,
        Refusal::BadFault,
        Refusal::AlreadyHeld,
        Refusal::NotHeld,
        Refusal::CardsFull,
        Refusal::FaultsFull,
        Refusal::ShortRoom,
        Refusal::ShortScratch,
        Refusal::BadLine,
        Refusal::LongText,
        Refusal::BadStores,
        Refusal::BadBounds,
    ];

    /// The number, as the rules and the C header have it.
    pub const fn number(self) -> u32 {
        self as u32
    }

    /// The refusal of this number, if there is one. 0 is no refusal: it was done.
    pub fn of(number: u32) -> Option<Refusal> {
        Refusal::ALL.into_iter().find(|refusal| refusal.number() == number)
    }
}

/// Done, or why not.
pub(crate) fn done(number: u32) -> Result<(), Refusal> {
    match Refusal::of(number) {
        _ if number == 0 => Ok(()),
        Some(refusal) => Err(refusal),
        None => unreachable!("the archive answers {number}, which no rule knows: it is of another version"),
    }
}

impl fmt::Display for Refusal {
    fn fmt(&self, out: &mut fmt::Formatter<'_>) -> fmt::Result {
        out.write_str(match self {
            Refusal::BadLimits => "a store is for 1 to 1024 cards and 1 to 2048 faults",
            Refusal::BadLength => "the words are not as many as the limits ask for",
            Refusal::NotSound => "the words are not those of a sound store",
            Refusal::BadSerial => "a serial is 1 to 16 digits, capital letters and hyphens",
            Refusal::BadFault => "a day is 1 to 65535 and a code 1 to 9999",
            Refusal::AlreadyHeld => "a card with this serial is held already",
            Refusal::NotHeld => "no card with this serial is held",
            Refusal::CardsFull => "the store holds as many cards as it can",
            Refusal::FaultsFull => "the store holds as many faults as it can",
            Refusal::ShortRoom => "the room or the output is too short",
            Refusal::ShortScratch => "the scratch has fewer than 384 bytes",
            Refusal::BadLine => "the line is not well formed",
            Refusal::LongText => "a job has at most 16384 bytes",
            Refusal::BadStores => "a report is over one to eight stores",
            Refusal::BadBounds => "the upper bound is 2 to 10, the lower one at least 1 and at most half of it",
        })
    }
}

impl Error for Refusal {}
