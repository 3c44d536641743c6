//! What `reference runs` prints: each line of a script with what came of it. Of a report that is its number, the bytes written, and
//! checksums of all of the output, the scratch, the words and the lengths as it left them. The proved program `list_runs` says what the
//! lines mean, and has to print the same.
use crate::calls;
use crate::layout::Offsets;
use crate::lists::Limits;
use crate::report;
use crate::script::{checksum, number, padded};
use std::iter;

/// How many words, lengths, bytes of scratch and bytes of output there are at most.
const WORDS: usize = 125_200;
const LENGTHS: usize = 16;
const SCRATCH: usize = 1_000;
const OUT: usize = 300_000;

/// The longest text that is printed.
const SHORT: usize = 160;

pub fn told(script: &str) -> String {
    let mut desk = Desk::new();
    script.lines().map(|line| format!("{line}{}\n", desk.told(line))).collect()
}

/// All words, and the run at their front; the list; where the store that joined last begins; what is lent for a report.
pub struct Desk {
    words: Vec<u32>,
    run: usize,
    lengths: Vec<u32>,
    last: usize,
    scratch: usize,
    out: usize,
    from: u32,
    step: u32,
}

impl Desk {
    pub fn new() -> Desk {
        let words = vec![0; WORDS];
        Desk { words, run: 0, lengths: Vec::new(), last: 0, scratch: 0, out: 0, from: 0, step: 0 }
    }

    pub fn run(&self) -> &[u32] {
        &self.words[..self.run]
    }

    pub fn lengths(&self) -> &[u32] {
        &self.lengths
    }

    /// Does a line, and gives what is printed behind it.
    pub fn told(&mut self, line: &str) -> String {
        let (letter, rest) = line.split_once(' ').unwrap_or((line, ""));
        let fields: Vec<&str> = rest.split(' ').collect();
        match letter {
            "#" => {}
            "E" | "F" | "W" => return self.call(letter, &fields),
            _ => return self.told_by_numbers(letter, &numbers(rest)),
        }
        String::new()
    }

    fn told_by_numbers(&mut self, letter: &str, fields: &[u32]) -> String {
        match (letter, fields) {
            ("N", []) => {
                (self.run, self.last) = (0, 0);
                self.lengths.clear();
            }
            ("O", &[cards, faults, upper, lower]) => {
                self.join(Offsets::of(Limits { cards, faults }).end);
                return format!(": {}", calls::open(self.store(), cards, faults, upper, lower));
            }
            ("C", &[at, count]) => {
                let (at, count) = (at as usize, count as usize);
                self.words.copy_within(at..at + count, self.run);
                self.join(count);
            }
            ("e" | "w", &[count, from, step]) => {
                let done = (0..count).filter(|k| self.numbered(letter, from + k * step, 0, 0) == 0).count();
                return format!(": {done}");
            }
            ("f", &[count, from, step, day, days, code, codes]) => {
                let filed = |k: &u32| {
                    let (day, code) = ((day + k * days - 1) % 65_535 + 1, (code + k * codes - 1) % 9_999 + 1);
                    self.numbered(letter, from + k * step, day, code) == 0
                };
                return format!(": {}", (0..count).filter(filed).count());
            }
            ("P", &[at, count, stride, value, step]) => {
                for k in 0..count {
                    self.words[(at + k * stride) as usize] = value.wrapping_add(k.wrapping_mul(step));
                }
            }
            ("Z", &[count]) => {
                let count = within(count, WORDS);
                self.words[self.run.min(count)..count].fill(0);
                self.run = count;
            }
            ("L", &[at, value]) => self.lengths[at as usize] = value,
            ("M", &[count]) => self.lengths.resize(within(count, LENGTHS), 0),
            ("B", &[count]) => self.scratch = within(count, SCRATCH),
            ("T", &[count]) => self.out = within(count, OUT),
            ("V", &[from, step]) => (self.from, self.step) = (from, step),
            ("R", []) => return self.report(),
            _ => panic!("no line of the script: {letter} {fields:?}"),
        }
        String::new()
    }

    /// A store of so many words joins the run.
    fn join(&mut self, count: usize) {
        self.last = self.run;
        self.run += count;
        self.lengths.push(count as u32);
    }

    /// The store that joined last.
    fn store(&mut self) -> &mut [u32] {
        &mut self.words[self.last..self.run]
    }

    // ---- calls

    fn call(&mut self, letter: &str, fields: &[&str]) -> String {
        let (day, code) = if letter == "F" { (number(fields[1]), number(fields[2])) } else { (0, 0) };
        format!(": {}", self.asked(letter, fields[0], day, code))
    }

    /// A call for a numbered card: four digits, and hyphens.
    fn numbered(&mut self, letter: &str, card: u32, day: u32, code: u32) -> u32 {
        let card = card % 1_024;
        let hyphens = "-".repeat(card as usize % 13);
        self.asked(&letter.to_uppercase(), &format!("{card:04}{hyphens}"), day, code)
    }

    fn asked(&mut self, letter: &str, serial: &str, day: u32, code: u32) -> u32 {
        let (bytes, length) = (padded(serial.as_bytes()), serial.len());
        let (words, scratch) = (self.store(), &mut [0; calls::SCRATCH]);
        let answer = match letter {
            "E" => calls::enter(words, scratch, bytes, length),
            "F" => calls::file(words, scratch, bytes, length, day, code),
            _ => calls::withdraw(words, scratch, bytes, length, &mut [0; 4_096]),
        };
        answer.number
    }

    // ---- the report

    /// What a lent buffer of so many bytes holds before a report.
    fn filled(&self, count: usize) -> Vec<u8> {
        iter::successors(Some(self.from), |byte| Some(byte + self.step)).map(|byte| byte as u8).take(count).collect()
    }

    fn report(&mut self) -> String {
        let (mut scratch, mut out) = (self.filled(self.scratch), self.filled(self.out));
        let wrote = report::report(self.run(), &self.lengths, &mut scratch, &mut out);
        let count = wrote.count as usize;
        let sums = [sum(&out), sum(&scratch), checksum(self.run()), checksum(&self.lengths)];
        let [out_sum, scratch_sum, words_sum, lengths_sum] = sums;
        let mut told = format!(": {} {count} out {out_sum} scratch {scratch_sum}", wrote.number);
        told += &format!(" words {words_sum} lengths {lengths_sum}");
        if (1..=SHORT).contains(&count) {
            told += &format!("\n{}", String::from_utf8_lossy(&out[..count]));
        }
        told
    }
}

impl Default for Desk {
    fn default() -> Desk {
        Desk::new()
    }
}

fn numbers(fields: &str) -> Vec<u32> {
    fields.split_terminator(' ').map(number).collect()
}

/// A size that the script may ask for.
fn within(count: u32, most: usize) -> usize {
    assert!(count as usize <= most, "{count} of {most}");
    count as usize
}

fn sum(bytes: &[u8]) -> u32 {
    checksum(&bytes.iter().copied().map(u32::from).collect::<Vec<u32>>())
}
