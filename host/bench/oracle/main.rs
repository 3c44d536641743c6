//! The second program behind the interface of the benchmarked ones: what it answers is what they must answer. It is slow, and is
//! not timed.
//!
//! `bench_reference` runs the frames of standard input; `bench_reference stores` writes stores, sound and not, for a checker to
//! judge; `bench_reference verdicts` reads such stores and judges them; `bench_reference report` makes the report over the stores of
//! standard input.
mod edits;
mod near;
mod report;
mod stores;

use frames::{Done, Program, CARDS, FAULTS, LOWER, OUT, UPPER};
use reference::job::{self, Tally};
use reference::layout::Offsets;
use reference::lists::Limits;
use reference::serial::WIDTH;
use reference::{calls, sound};
use std::{env, process};

struct Reference {
    words: Vec<u32>,
    tally: Tally,
}

impl Reference {
    /// Words that are not opened yet.
    fn new() -> Reference {
        let length = Offsets::of(Limits { cards: CARDS, faults: FAULTS }).end;
        Reference { words: vec![0; length], tally: Tally::default() }
    }
}

impl Program for Reference {
    fn open(&mut self) {
        calls::open(&mut self.words, CARDS, FAULTS, UPPER, LOWER);
    }

    fn job(&mut self, text: &[u8], out: &mut Vec<u8>) -> Done {
        out.resize(OUT, 0);
        let done = job::run(&mut self.words, &mut [0; calls::SCRATCH], text, out, &mut self.tally);
        out.truncate(done.bytes as usize);
        Done { number: done.number, lines: done.lines, bytes: done.bytes }
    }

    fn tally(&self) -> [u64; 6] {
        let Tally { entries, withdrawals, filings, splits, contractions, comparisons } = self.tally;
        [entries, withdrawals, filings, splits, contractions, comparisons]
    }

    /// A pair is two words of four bytes.
    fn show(&mut self, serial: &[u8]) -> Option<Done> {
        let mut bytes = [0; WIDTH];
        bytes.iter_mut().zip(serial).for_each(|(byte, &given)| *byte = given);
        let mut room = vec![0; 2 * FAULTS as usize];
        let answer = calls::show(&self.words, &mut [0; calls::SCRATCH], bytes, serial.len(), &mut room);
        Some(Done { number: answer.number, lines: 1, bytes: 8 * answer.faults })
    }

    fn check(&mut self) -> Option<Done> {
        let number = if sound::sound(&self.words) { 0 } else { 3 };
        Some(Done { number, lines: 1, bytes: 0 })
    }
}

fn main() {
    let arguments: Vec<String> = env::args().skip(1).collect();
    let words: Vec<&str> = arguments.iter().map(String::as_str).collect();
    let ended = match words[..] {
        [] => frames::run(&mut Reference::new()),
        ["stores"] => stores::write().map_err(|error| error.to_string()),
        ["verdicts"] => stores::judge().map_err(|error| error.to_string()),
        ["report"] => report::run(),
        _ => Err("usage: bench_reference [stores | verdicts | report]".to_string()),
    };
    if let Err(why) = ended {
        eprintln!("bench_reference: {why}");
        process::exit(2);
    }
}
