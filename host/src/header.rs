//! What the first words of a store say of it: `docs/RULES.md` 3 has the layout.
use crate::exported;
use crate::refusal::{done, Refusal};
use crate::sizes::SCRATCH;
use crate::terms::{Bounds, Held, Limits};

/// How many words the header has.
const WORDS: usize = 16;

// The words of the header that are read here, by their places.
const FORMAT: usize = 0;
const CARD_LIMIT: usize = 1;
const FAULT_LIMIT: usize = 2;
const CARDS_HELD: usize = 5;
const FAULTS_HELD: usize = 6;
const BOUNDS: usize = 14;

/// The format whose bounds are [`FIRST_BOUNDS`], whatever its word 14 says.
const FIRST_FORMAT: u32 = 1;
const FIRST_BOUNDS: Bounds = Bounds { upper: 4, lower: 2 };

/// Word 14 of any other format is so many times the upper bound, and the lower one.
const UPPER: u32 = 256;

/// What a sound store is for and what it holds.
pub(crate) struct Header {
    pub(crate) limits: Limits,
    pub(crate) bounds: Bounds,
    pub(crate) held: Held,
}

impl Header {
    /// That of sound words. Any others are refused by [`NotSound`](Refusal::NotSound) before a word of them is believed.
    /// The scratch of the check is its own, so the words alone are asked for.
    pub(crate) fn of(words: &[u32]) -> Result<Header, Refusal> {
        done(exported::check(words, &mut [0; SCRATCH]))?;
        // Sound words are more than these.
        let header = words.get(..WORDS).ok_or(Refusal::NotSound)?;
        let bounds = match header[FORMAT] {
            FIRST_FORMAT => FIRST_BOUNDS,
            _ => Bounds { upper: header[BOUNDS] / UPPER, lower: header[BOUNDS] % UPPER },
        };
        Ok(Header {
            limits: Limits { cards: header[CARD_LIMIT], faults: header[FAULT_LIMIT] },
            bounds,
            held: Held { cards: header[CARDS_HELD], faults: header[FAULTS_HELD] },
        })
    }
}
