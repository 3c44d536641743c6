//! A store in a file, and the answers of its last job in a file beside it, as bytes.
use crate::layout::{Offsets, CARD_WORDS, FAULT_WORDS};
use crate::lists::Limits;

/// The bytes of a word.
pub const WORD: usize = 4;

/// Words as bytes, four each, the lowest first.
pub fn of_words(words: &[u32]) -> Vec<u8> {
    words.iter().flat_map(|word| word.to_le_bytes()).collect()
}

/// Bytes as words; nothing where the last word is not whole.
pub fn to_words(bytes: &[u8]) -> Option<Vec<u32>> {
    let word = |four: &[u8]| four.iter().rev().fold(0, |value, &byte| 256 * value + u32::from(byte));
    (bytes.len() % WORD == 0).then(|| bytes.chunks(WORD).map(word).collect())
}

/// Whether some store has so many bytes. A card takes as many words as three faults, so every whole number of faults' words from the
/// least store's on is the length of one, up to the greatest.
pub fn is_length(bytes: usize) -> bool {
    let length = |cards, faults| Offsets::of(Limits { cards, faults }).end;
    let (least, most) = (length(1, 1), length(1_024, 2_048));
    debug_assert_eq!(CARD_WORDS, 3 * FAULT_WORDS);
    let words = bytes / WORD;
    bytes % WORD == 0 && (least..=most).contains(&words) && (words - least) % FAULT_WORDS == 0
}

/// What stands beside a store's file: the file as a job left it, and that job's answers.
#[derive(Clone, Debug, PartialEq, Eq)]
pub struct Last {
    pub file: Vec<u8>,
    pub answers: Vec<u8>,
}

impl Last {
    /// The number of the store's words, its bytes, the answers.
    pub fn bytes(&self) -> Vec<u8> {
        let words = (self.file.len() / WORD) as u32;
        [&words.to_le_bytes()[..], &self.file, &self.answers].concat()
    }

    /// Nothing where the bytes end before the store does.
    pub fn read(bytes: &[u8]) -> Option<Last> {
        let words = to_words(bytes.get(..WORD)?)?[0] as usize;
        let end = words.checked_mul(WORD)?.checked_add(WORD)?;
        let file = bytes.get(WORD..end)?.to_vec();
        Some(Last { file, answers: bytes[end..].to_vec() })
    }
}
