//! The job: lines of text run against a store, an answer line for each.
use crate::calls;
use crate::layout::{self, Offsets};
use crate::lists::{Entry, Limits, Store};
use crate::operations::{self, Operation, Outcome};
use crate::rules::Bounds;
use crate::serial::Serial;
use crate::sound;

/// The longest job and the longest line, in bytes; a line's LF does not count.
pub const LONGEST_JOB: usize = 16_384;
pub const LONGEST_LINE: usize = 64;

/// How a job ended.
#[derive(Clone, Copy, Debug, Default, PartialEq, Eq)]
pub struct Done {
    pub number: u32,
    pub lines: u32,
    pub bytes: u32,
}

/// What jobs have done, summed up. A count stays at its top instead of passing it.
#[derive(Clone, Copy, Debug, Default, PartialEq, Eq)]
pub struct Tally {
    pub entries: u64,
    pub withdrawals: u64,
    pub filings: u64,
    pub splits: u64,
    pub contractions: u64,
    pub comparisons: u64,
}

pub fn run(words: &mut [u32], scratch: &mut [u8], text: &[u8], out: &mut [u8], tally: &mut Tally) -> Done {
    let refused = |number| Done { number, ..Done::default() };
    if !calls::cleared(scratch) {
        return refused(11);
    }
    if text.len() > LONGEST_JOB {
        return refused(13);
    }
    match sound::read(words) {
        None => refused(3),
        Some(mut store) => {
            let done = run_lines(&mut store, text, out, tally);
            words.copy_from_slice(&layout::encode(&store));
            done
        }
    }
}

/// Each line is tried on a copy of the store, and counts only if its answer fits.
fn run_lines(store: &mut Store, text: &[u8], out: &mut [u8], tally: &mut Tally) -> Done {
    let mut done = Done::default();
    for line in lines(text) {
        let mut after = store.clone();
        let (operation, outcome) = run_line(&mut after, line);
        let answer = answer_line(&outcome);
        let start = done.bytes as usize;
        let room = match out[start..].get_mut(..answer.len()) {
            None => return Done { number: 10, ..done },
            Some(room) => room,
        };
        room.copy_from_slice(answer.as_bytes());
        done.bytes += answer.len() as u32;
        done.lines += 1;
        tally.count(operation, &outcome, store.buckets.len(), after.buckets.len());
        *store = after;
    }
    done
}

/// A last line without LF counts if it is not empty.
fn lines(text: &[u8]) -> Vec<&[u8]> {
    let mut pieces: Vec<&[u8]> = text.split(|&byte| byte == b'\n').collect();
    if pieces.last() == Some(&&b""[..]) {
        pieces.pop();
    }
    pieces
}

/// What the line asked, if it is well formed, and what came of it.
fn run_line(store: &mut Store, line: &[u8]) -> (Option<Operation>, Outcome) {
    match parse(line) {
        None => (None, operations::refused(12)),
        Some((operation, serial)) => {
            let outcome = operations::apply(store, operation, Serial::new(serial), usize::MAX);
            (Some(operation), outcome)
        }
    }
}

/// The operation of a well-formed line, and its serial field, which need not be a serial.
fn parse(line: &[u8]) -> Option<(Operation, &[u8])> {
    if line.len() > LONGEST_LINE {
        return None;
    }
    let fields: Vec<&[u8]> = line.split(|&byte| byte == b' ').collect();
    match fields[..] {
        [b"E", serial] => Some((Operation::Enter, serial)),
        [b"S", serial] => Some((Operation::Show, serial)),
        [b"W", serial] => Some((Operation::Withdraw, serial)),
        [b"F", serial, day, code] => {
            let entry = Entry { day: number(day)?, code: number(code)? };
            Some((Operation::File(entry), serial))
        }
        _ => None,
    }
}

/// A number field is 1 to 9 digits, so its value is below 2^32.
fn number(field: &[u8]) -> Option<u32> {
    let well_formed = (1..=9).contains(&field.len()) && field.iter().all(u8::is_ascii_digit);
    well_formed.then(|| field.iter().fold(0, |value, digit| 10 * value + u32::from(digit - b'0')))
}

fn answer_line(outcome: &Outcome) -> String {
    let answer = outcome.answer;
    let numbers = [answer.number, answer.comparisons, answer.scanned, answer.faults].map(|number| number.to_string());
    let listed: String = outcome.listed.iter().map(|entry| format!(" {}:{}", entry.day, entry.code)).collect();
    numbers.join(" ") + &listed + "\n"
}

impl Tally {
    fn count(&mut self, operation: Option<Operation>, outcome: &Outcome, buckets_before: usize, buckets_after: usize) {
        match operation {
            _ if outcome.answer.number != 0 => (),
            Some(Operation::Enter) => add(&mut self.entries, 1),
            Some(Operation::Withdraw) => add(&mut self.withdrawals, 1),
            Some(Operation::File(_)) => add(&mut self.filings, 1),
            Some(Operation::Show) | None => (),
        }
        add(&mut self.splits, u64::from(buckets_after > buckets_before));
        add(&mut self.contractions, u64::from(buckets_after < buckets_before));
        add(&mut self.comparisons, u64::from(outcome.answer.comparisons));
    }
}

fn add(count: &mut u64, more: u64) {
    *count = count.saturating_add(more);
}

/// A job on the words of a store with the output that `depot` has: its number, and all that is written for it. Where the number is not
/// 0, a last line tells it.
pub fn answered(words: &mut [u32], text: &[u8]) -> (u32, Vec<u8>) {
    let mut out = vec![0; 16_384];
    let done = run(words, &mut [0; calls::SCRATCH], text, &mut out, &mut Tally::default());
    out.truncate(done.bytes as usize);
    if done.number != 0 {
        out.extend(format!("{} 0 0 0\n", done.number).bytes());
    }
    (done.number, out)
}

/// What the program `depot` writes for this input.
pub fn depot(input: &[u8]) -> Vec<u8> {
    let limits = Limits { cards: 256, faults: 512 };
    let mut words = vec![0; Offsets::of(limits).end];
    let Bounds { upper, lower } = Bounds::USUAL;
    calls::open(&mut words, limits.cards, limits.faults, upper, lower);
    answered(&mut words, input).1
}
