//! Serials: exact bytes, so that `7`, `07` and `007` are three.
use crate::rules;

/// The most bytes of a serial.
pub const WIDTH: usize = 16;

/// A valid serial: 1 to 16 bytes, each a digit, an upper-case letter or a hyphen.
#[derive(Clone, Debug, PartialEq, Eq, PartialOrd, Ord)]
pub struct Serial(Vec<u8>);

impl Serial {
    /// The bytes of a label, if they are a valid serial.
    pub fn new(bytes: &[u8]) -> Option<Serial> {
        let fits = (1..=WIDTH).contains(&bytes.len());
        (fits && bytes.iter().all(|&byte| allowed(byte))).then(|| Serial(bytes.to_vec()))
    }

    /// A serial as it travels: sixteen bytes and a length, the unused bytes zero.
    pub fn sent(bytes: [u8; WIDTH], length: usize) -> Option<Serial> {
        let used = bytes.get(..length)?;
        let unused = &bytes[length..];
        unused.iter().all(|&byte| byte == 0).then(|| Serial::new(used))?
    }

    /// A serial as a card cell has it: a length and four words.
    pub fn stored(length: u32, words: &[u32]) -> Option<Serial> {
        let bytes: Vec<u8> = words.iter().flat_map(|word| word.to_be_bytes()).collect();
        Serial::sent(bytes.try_into().ok()?, usize::try_from(length).ok()?)
    }

    pub fn bytes(&self) -> &[u8] {
        &self.0
    }

    /// The sixteen bytes that travel with the length.
    pub fn padded(&self) -> [u8; WIDTH] {
        let mut bytes = [0; WIDTH];
        bytes[..self.0.len()].copy_from_slice(&self.0);
        bytes
    }

    /// The four words of a card cell, the first byte highest.
    pub fn words(&self) -> Vec<u32> {
        self.padded().chunks(4).map(|four| four.iter().fold(0, |word, &byte| word * 256 + u32::from(byte))).collect()
    }

    pub fn code(&self) -> u32 {
        rules::code(&self.0)
    }
}

fn allowed(byte: u8) -> bool {
    matches!(byte, b'0'..=b'9' | b'A'..=b'Z' | b'-')
}
