//! The border: the functions of the archive as Rust declares them, and a safe function over each. No other file of this
//! crate has `unsafe` code, and nothing is proved about this one: it is short, to be read, and tested from every side.
//!
//! The archive's functions take any numbers and any content, always return, keep nothing from one call to the next, and
//! touch no memory but what they are lent and their stack. They ask of a caller what a C program could get wrong, and what
//! a slice or a reference of Rust has by itself:
//!
//! - a pointer is not NULL, also where the length is 0: no reference and no slice is NULL;
//! - words stand at multiples of 4 and a tally at a multiple of 8: `u32` and [`Tally`] do;
//! - a length is what the buffer has, in elements, and 16 bytes of a serial can be read or written: pointer and length are
//!   those of one slice, and a serial is a whole array;
//! - all that is lent is initialized, and stays until the call returns: slices and references are, and the borrows last;
//! - what is written overlaps nothing else that is lent, and no other thread touches it meanwhile: it is lent by `&mut`;
//! - what is only read is written by nobody meanwhile: it is lent by `&`;
//! - results and tallies are laid out alike on both sides: `#[repr(C)]` here and there, and the constants at the end of
//!   this file would not build with another size, alignment or order.
use crate::sizes::SERIAL;

/// What each of the four calls answers: a number, 0 if it was done, and three counts.
#[derive(Clone, Copy, Debug, Default, PartialEq, Eq)]
#[repr(C)]
pub struct Answer {
    /// 0, or the number of a [`Refusal`](crate::Refusal).
    pub number: u32,
    /// If the card is held, its place in its bucket's chain, from 1; if not, the chain's length. 0 where the call was
    /// refused before it searched.
    pub comparisons: u32,
    /// The cards that a split or a contraction went through; 0 if there was none.
    pub scanned: u32,
    /// The card's faults, with a new one, after a done `file`, `show` or `withdraw`, and those that did not fit with 10;
    /// else 0.
    pub faults: u32,
}

/// How a job ended.
#[derive(Clone, Copy, Debug, Default, PartialEq, Eq)]
#[repr(C)]
pub struct Done {
    /// 0 if all lines were answered, 10 if the output was too short for the next answer, or the number of another refusal.
    pub number: u32,
    /// The lines that were answered.
    pub lines: u32,
    /// The bytes that were written to the front of the output.
    pub bytes: u32,
}

/// What a report gives.
#[derive(Clone, Copy, Debug, Default, PartialEq, Eq)]
#[repr(C)]
pub struct Wrote {
    /// 0, or the number of a [`Refusal`](crate::Refusal).
    pub number: u32,
    /// The bytes that were written to the front of the output.
    pub count: u32,
}

/// What the answered lines of jobs have come to. Each count stays at its top instead of passing it.
#[derive(Clone, Copy, Debug, Default, PartialEq, Eq)]
#[repr(C)]
pub struct Tally {
    /// Accepted entries.
    pub entries: u64,
    /// Accepted withdrawals.
    pub withdrawals: u64,
    /// Accepted filings.
    pub filings: u64,
    /// Splits of the table, also of an empty bucket.
    pub splits: u64,
    /// Contractions of the table, also of an empty bucket.
    pub contractions: u64,
    /// The comparisons of all answered lines.
    pub comparisons: u64,
}

// As crates/card_store/src/lib.rt has them: a slice passes as a pointer and then a length, an array and a struct behind a
// reference as a bare pointer.
extern "C" {
    fn reader_code(bytes: *const u8, length: usize) -> u32;
    fn reader_address(code: u32, maxp: u32, p: u32) -> u32;
    fn reader_pad(label: *const u8, length: usize, serial: *mut [u8; SERIAL]);
    fn reader_open(words: *mut u32, length: usize, cards: u32, faults: u32, upper: u32, lower: u32) -> u32;
    fn reader_check(words: *const u32, words_len: usize, scratch: *mut u8, scratch_len: usize) -> u32;
    fn reader_enter(
        words: *mut u32,
        words_len: usize,
        scratch: *mut u8,
        scratch_len: usize,
        serial: *const [u8; SERIAL],
        length: usize,
    ) -> Answer;
    fn reader_file(
        words: *mut u32,
        words_len: usize,
        scratch: *mut u8,
        scratch_len: usize,
        serial: *const [u8; SERIAL],
        length: usize,
        day: u32,
        code: u32,
    ) -> Answer;
    fn reader_show(
        words: *const u32,
        words_len: usize,
        scratch: *mut u8,
        scratch_len: usize,
        serial: *const [u8; SERIAL],
        length: usize,
        room: *mut u32,
        room_len: usize,
    ) -> Answer;
    fn reader_withdraw(
        words: *mut u32,
        words_len: usize,
        scratch: *mut u8,
        scratch_len: usize,
        serial: *const [u8; SERIAL],
        length: usize,
        room: *mut u32,
        room_len: usize,
    ) -> Answer;
    fn reader_job(
        words: *mut u32,
        words_len: usize,
        scratch: *mut u8,
        scratch_len: usize,
        text: *const u8,
        text_len: usize,
        out: *mut u8,
        out_len: usize,
        tally: *mut Tally,
    ) -> Done;
    fn reader_report(
        words: *const u32,
        words_len: usize,
        lengths: *const u32,
        lengths_len: usize,
        scratch: *mut u8,
        scratch_len: usize,
        out: *mut u8,
        out_len: usize,
    ) -> Wrote;
}

/// The serial code of any bytes: from 0, for each byte 33 × code + byte, modulo 2^32.
///
/// ```
/// assert_eq!(card_store::code(b"7"), 55);
/// assert_eq!(card_store::code(b"007"), 53_911);
/// ```
pub fn code(bytes: &[u8]) -> u32 {
    // SAFETY: pointer and length are those of one slice, which is only read.
    unsafe { reader_code(bytes.as_ptr(), bytes.len()) }
}

/// The bucket of a code in a table with maxp + p buckets, or [`NO_ADDRESS`](crate::NO_ADDRESS) where maxp and p are no
/// state of a table.
///
/// ```
/// assert_eq!(card_store::address(55, 16, 8), 23);
/// assert_eq!(card_store::address(55, 24, 0), card_store::NO_ADDRESS);
/// ```
pub fn address(code: u32, maxp: u32, p: u32) -> u32 {
    // SAFETY: three numbers, any numbers; nothing is lent.
    unsafe { reader_address(code, maxp, p) }
}

/// A label as a serial travels: its bytes, the unused ones of the sixteen zero. Of more than sixteen the first sixteen;
/// what tells such a label from a serial is its length, which goes beside it.
///
/// ```
/// assert_eq!(card_store::calls::pad(b"007"), *b"007\0\0\0\0\0\0\0\0\0\0\0\0\0");
/// ```
pub fn pad(label: &[u8]) -> [u8; SERIAL] {
    let mut serial = [0; SERIAL];
    pad_into(label, &mut serial);
    serial
}

/// The same as [`pad`], into sixteen bytes that the caller has. All of them are written.
pub fn pad_into(label: &[u8], serial: &mut [u8; SERIAL]) {
    // SAFETY: pointer and length of the label are those of one slice; the serial is a whole array, lent by `&mut`.
    unsafe { reader_pad(label.as_ptr(), label.len(), serial) }
}

/// Makes the words a fresh store for so many cards and faults, with these load bounds, whatever the words were. Gives 0,
/// 1, 15 or 2; where it is not 0 the words are as they were.
pub fn open(words: &mut [u32], cards: u32, faults: u32, upper: u32, lower: u32) -> u32 {
    // SAFETY: pointer and length are those of one slice, lent by `&mut`.
    unsafe { reader_open(words.as_mut_ptr(), words.len(), cards, faults, upper, lower) }
}

/// What every call asks first. Gives 11 for scratch that is too short, 3 for words that are not those of a sound store,
/// else 0.
pub fn check(words: &[u32], scratch: &mut [u8]) -> u32 {
    // SAFETY: each pointer and length are those of one slice; the words are only read, the scratch is lent by `&mut`.
    unsafe { reader_check(words.as_ptr(), words.len(), scratch.as_mut_ptr(), scratch.len()) }
}

/// Enters a card. Gives 0, 11, 3, 4, 6 or 8.
pub fn enter(words: &mut [u32], scratch: &mut [u8], serial: &[u8; SERIAL], length: usize) -> Answer {
    // SAFETY: each pointer and length are those of one slice, words and scratch are lent by `&mut`; the serial is a whole
    // array, whatever the length says.
    unsafe { reader_enter(words.as_mut_ptr(), words.len(), scratch.as_mut_ptr(), scratch.len(), serial, length) }
}

/// Files a fault against a card. Gives 0, 11, 3, 4, 5, 7 or 9.
pub fn file(
    words: &mut [u32],
    scratch: &mut [u8],
    serial: &[u8; SERIAL],
    length: usize,
    day: u32,
    code: u32,
) -> Answer {
    let (words_len, scratch_len) = (words.len(), scratch.len());
    // SAFETY: as in `enter`; day and code are any numbers.
    unsafe { reader_file(words.as_mut_ptr(), words_len, scratch.as_mut_ptr(), scratch_len, serial, length, day, code) }
}

/// Lists the faults of a card in the room, two words each: day, code. Gives 0, 11, 3, 4, 7 or 10.
pub fn show(words: &[u32], scratch: &mut [u8], serial: &[u8; SERIAL], length: usize, room: &mut [u32]) -> Answer {
    let (words_len, scratch_len, room_len) = (words.len(), scratch.len(), room.len());
    let (words, scratch, room) = (words.as_ptr(), scratch.as_mut_ptr(), room.as_mut_ptr());
    // SAFETY: each pointer and length are those of one slice; the words are only read, scratch and room are lent by `&mut`;
    // the serial is a whole array.
    unsafe { reader_show(words, words_len, scratch, scratch_len, serial, length, room, room_len) }
}

/// Lists the faults of a card in the room as [`show`] does, and removes it. Gives 0, 11, 3, 4, 7 or 10.
pub fn withdraw(
    words: &mut [u32],
    scratch: &mut [u8],
    serial: &[u8; SERIAL],
    length: usize,
    room: &mut [u32],
) -> Answer {
    let (words_len, scratch_len, room_len) = (words.len(), scratch.len(), room.len());
    let (words, scratch, room) = (words.as_mut_ptr(), scratch.as_mut_ptr(), room.as_mut_ptr());
    // SAFETY: each pointer and length are those of one slice, all three lent by `&mut`; the serial is a whole array.
    unsafe { reader_withdraw(words, words_len, scratch, scratch_len, serial, length, room, room_len) }
}

/// Runs a job: each line of the text in turn, its answer to the output, its counts to the tally. Gives 0, 11, 13, 3 or 10.
pub fn job(words: &mut [u32], scratch: &mut [u8], text: &[u8], out: &mut [u8], tally: &mut Tally) -> Done {
    let (words_len, scratch_len, text_len, out_len) = (words.len(), scratch.len(), text.len(), out.len());
    let (words, scratch, text, out) = (words.as_mut_ptr(), scratch.as_mut_ptr(), text.as_ptr(), out.as_mut_ptr());
    // SAFETY: each pointer and length are those of one slice; the text is only read, all else is lent by `&mut`; the tally
    // is a whole one.
    unsafe { reader_job(words, words_len, scratch, scratch_len, text, text_len, out, out_len, tally) }
}

/// Writes faults by code over the stores that stand one behind another in the words, with these lengths. Gives 0, 11, 14, 3
/// or 10.
pub fn report(words: &[u32], lengths: &[u32], scratch: &mut [u8], out: &mut [u8]) -> Wrote {
    let (words_len, lengths_len, scratch_len, out_len) = (words.len(), lengths.len(), scratch.len(), out.len());
    let (words, lengths, scratch, out) = (words.as_ptr(), lengths.as_ptr(), scratch.as_mut_ptr(), out.as_mut_ptr());
    // SAFETY: each pointer and length are those of one slice; words and lengths are only read, scratch and output are lent
    // by `&mut`.
    unsafe { reader_report(words, words_len, lengths, lengths_len, scratch, scratch_len, out, out_len) }
}

// ---- the layout of what crosses the border

/// The parts of each struct, one behind another from its first byte, without a gap. A struct of another size does not build
/// here, and one of another order fails.
const _: () = {
    use std::mem::{align_of, transmute};

    let answer = Answer { number: 0, comparisons: 1, scanned: 2, faults: 3 };
    let done = Done { number: 0, lines: 1, bytes: 2 };
    let wrote = Wrote { number: 0, count: 1 };
    let tally = Tally { entries: 0, withdrawals: 1, filings: 2, splits: 3, contractions: 4, comparisons: 5 };
    // SAFETY: each array has the size of its struct, and any bits are numbers.
    unsafe {
        assert!(matches!(transmute::<Answer, [u32; 4]>(answer), [0, 1, 2, 3]));
        assert!(matches!(transmute::<Done, [u32; 3]>(done), [0, 1, 2]));
        assert!(matches!(transmute::<Wrote, [u32; 2]>(wrote), [0, 1]));
        assert!(matches!(transmute::<Tally, [u64; 6]>(tally), [0, 1, 2, 3, 4, 5]));
    }
    assert!(align_of::<Answer>() == 4 && align_of::<Done>() == 4 && align_of::<Wrote>() == 4);
    assert!(align_of::<Tally>() == 8);
};
