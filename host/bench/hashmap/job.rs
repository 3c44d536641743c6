//! The job: lines of text run against the store, an answer line for each.
use crate::line::{self, Operation};
use crate::store::{Fault, Store};
use frames::{Done, OUT};

const LONGEST_JOB: usize = 16_384;

/// The answers so far. An answer that does not fit leaves nothing behind.
pub struct Out<'a>(&'a mut Vec<u8>);

pub fn run(store: &mut Store, text: &[u8], out: &mut Vec<u8>) -> Done {
    if text.len() > LONGEST_JOB {
        return Done { number: 13, ..Done::default() };
    }
    let mut out = Out(out);
    let (number, lines) = run_lines(store, text, &mut out);
    Done { number, lines, bytes: out.0.len() as u32 }
}

fn run_lines(store: &mut Store, text: &[u8], out: &mut Out) -> (u32, u32) {
    if text.is_empty() {
        return (0, 0);
    }
    let text = text.strip_suffix(b"\n").unwrap_or(text);
    let mut lines = 0;
    for line in text.split(|&byte| byte == b'\n') {
        if !run_line(store, line, out) {
            return (10, lines);
        }
        lines += 1;
    }
    (0, lines)
}

/// Whether the line's answer fits. If not, the line has no effect.
fn run_line(store: &mut Store, line: &[u8], out: &mut Out) -> bool {
    let (operation, field) = match line::parse(line) {
        None => return out.refuse(12),
        Some(parsed) => parsed,
    };
    match (operation, line::serial(field)) {
        (_, None) => out.refuse(4),
        (Operation::Enter, Some(serial)) => store.enter(serial, out),
        (Operation::File(fault), Some(serial)) => store.file(serial, fault, out),
        (Operation::Show, Some(serial)) => store.show(serial, out),
        (Operation::Withdraw, Some(serial)) => store.withdraw(serial, out),
    }
}

impl Out<'_> {
    pub fn refuse(&mut self, number: u32) -> bool {
        self.answer(number, 0, &[])
    }

    /// Writes an answer line with these faults listed, and tells whether it fits. Comparisons and scanned are 0.
    pub fn answer(&mut self, number: u32, count: usize, listed: &[Fault]) -> bool {
        let start = self.0.len();
        self.decimal(number);
        self.0.extend_from_slice(b" 0 0 ");
        self.decimal(count as u32);
        for fault in listed {
            self.0.push(b' ');
            self.decimal(fault.day);
            self.0.push(b':');
            self.decimal(fault.code);
        }
        self.0.push(b'\n');
        let fits = self.0.len() <= OUT;
        if !fits {
            self.0.truncate(start);
        }
        fits
    }

    fn decimal(&mut self, number: u32) {
        let mut digits = [0; 10];
        let mut at = digits.len();
        let mut rest = number;
        loop {
            at -= 1;
            digits[at] = b'0' + (rest % 10) as u8;
            rest /= 10;
            if rest == 0 {
                break;
            }
        }
        self.0.extend_from_slice(&digits[at..]);
    }
}
