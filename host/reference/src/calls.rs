//! The calls on words, with lent scratch and room, as a caller of the store sees them.
use crate::layout::{self, Offsets};
use crate::lists::{Entry, Limits, Store};
use crate::operations::{self, Answer, Operation, Outcome};
use crate::rules::Bounds;
use crate::serial::{Serial, WIDTH};
use crate::sound;

/// The scratch that a call needs, in bytes.
pub const SCRATCH: usize = 384;

/// Sets a fresh store.
pub fn open(words: &mut [u32], cards: u32, faults: u32, upper: u32, lower: u32) -> u32 {
    let (limits, bounds) = (Limits { cards, faults }, Bounds { upper, lower });
    if !limits.in_range() {
        return 1;
    }
    if !bounds.in_range() {
        return 15;
    }
    if words.len() != Offsets::of(limits).end {
        return 2;
    }
    words.copy_from_slice(&layout::encode(&Store::fresh(limits, bounds)));
    0
}

pub fn enter(words: &mut [u32], scratch: &mut [u8], serial: [u8; WIDTH], length: usize) -> Answer {
    call(words, scratch, Operation::Enter, Serial::sent(serial, length), &mut [])
}

pub fn file(words: &mut [u32], scratch: &mut [u8], serial: [u8; WIDTH], length: usize, day: u32, code: u32) -> Answer {
    call(words, scratch, Operation::File(Entry { day, code }), Serial::sent(serial, length), &mut [])
}

pub fn show(words: &[u32], scratch: &mut [u8], serial: [u8; WIDTH], length: usize, room: &mut [u32]) -> Answer {
    call(&mut words.to_vec(), scratch, Operation::Show, Serial::sent(serial, length), room)
}

pub fn withdraw(words: &mut [u32], scratch: &mut [u8], serial: [u8; WIDTH], length: usize, room: &mut [u32]) -> Answer {
    call(words, scratch, Operation::Withdraw, Serial::sent(serial, length), room)
}

fn call(
    words: &mut [u32],
    scratch: &mut [u8],
    operation: Operation,
    serial: Option<Serial>,
    room: &mut [u32],
) -> Answer {
    let outcome = outcome(words, scratch, operation, serial, room.len());
    let pairs = outcome.listed.iter().flat_map(|entry| [entry.day, entry.code]);
    room.iter_mut().zip(pairs).for_each(|(word, value)| *word = value);
    outcome.answer
}

fn outcome(
    words: &mut [u32],
    scratch: &mut [u8],
    operation: Operation,
    serial: Option<Serial>,
    room: usize,
) -> Outcome {
    if !cleared(scratch) {
        return operations::refused(11);
    }
    let mut store = match sound::read(words) {
        None => return operations::refused(3),
        Some(store) => store,
    };
    let outcome = operations::apply(&mut store, operation, serial, room);
    words.copy_from_slice(&layout::encode(&store));
    outcome
}

/// Clears the scratch that a call needs. Scratch that is too short stays as it is.
pub(crate) fn cleared(scratch: &mut [u8]) -> bool {
    match scratch.get_mut(..SCRATCH) {
        None => false,
        Some(needed) => {
            needed.fill(0);
            true
        }
    }
}
