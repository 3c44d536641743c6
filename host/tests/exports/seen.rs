//! What was called and lent: how often each export gave each number, and how each buffer stood.
use crate::guarded::ALIGNMENT;
use std::collections::BTreeMap;

/// The exports that work on a store, and all numbers that each can give.
pub const NUMBERS: [(&str, &[u32]); 8] = [
    ("open", &[0, 1, 2, 15]),
    ("check", &[0, 3, 11]),
    ("enter", &[0, 3, 4, 6, 8, 11]),
    ("file", &[0, 3, 4, 5, 7, 9, 11]),
    ("show", &[0, 3, 4, 7, 10, 11]),
    ("withdraw", &[0, 3, 4, 7, 10, 11]),
    ("job", &[0, 3, 10, 11, 13]),
    ("report", &[0, 3, 10, 11, 14]),
];

/// The numbers that lines of a job are answered by.
pub const NUMBERS_OF_LINES: [u32; 8] = [0, 4, 5, 6, 7, 8, 9, 12];

/// Each buffer that an export is lent, with the bytes of its elements, and whether it can be empty.
pub const BUFFERS: [(&str, usize, bool); 29] = [
    ("code bytes", 1, true),
    ("pad label", 1, true),
    ("pad serial", 1, false),
    ("open words", 4, true),
    ("check words", 4, true),
    ("check scratch", 1, true),
    ("enter words", 4, true),
    ("enter scratch", 1, true),
    ("enter serial", 1, false),
    ("file words", 4, true),
    ("file scratch", 1, true),
    ("file serial", 1, false),
    ("show words", 4, true),
    ("show scratch", 1, true),
    ("show serial", 1, false),
    ("show room", 4, true),
    ("withdraw words", 4, true),
    ("withdraw scratch", 1, true),
    ("withdraw serial", 1, false),
    ("withdraw room", 4, true),
    ("job words", 4, true),
    ("job scratch", 1, true),
    ("job text", 1, true),
    ("job out", 1, true),
    ("job tally", 8, false),
    ("report words", 4, true),
    ("report lengths", 4, true),
    ("report scratch", 1, true),
    ("report out", 1, true),
];

#[derive(Default)]
pub struct Seen {
    numbers: BTreeMap<(&'static str, u32), usize>,
    lines: BTreeMap<u32, usize>,
    /// How often a call went through cards of a split or a contraction.
    scans: BTreeMap<&'static str, usize>,
    /// Of each buffer the remainders of its addresses by 16, one bit each, and whether it was empty once.
    buffers: BTreeMap<&'static str, (u16, bool)>,
}

impl Seen {
    pub fn call(&mut self, export: &'static str, number: u32) {
        *self.numbers.entry((export, number)).or_default() += 1;
    }

    pub fn scanned(&mut self, export: &'static str, scanned: u32) {
        *self.scans.entry(export).or_default() += usize::from(scanned > 0);
    }

    /// The lines that a job has answered begin with their numbers.
    pub fn answers(&mut self, text: &[u8]) {
        for line in String::from_utf8_lossy(text).lines() {
            let number = line.split(' ').next().and_then(|field| field.parse().ok()).expect("a number");
            *self.lines.entry(number).or_default() += 1;
        }
    }

    pub fn buffer<T>(&mut self, name: &'static str, first: *const T, is_empty: bool) {
        let (remainders, was_empty) = self.buffers.entry(name).or_default();
        *remainders |= 1 << (first as usize % ALIGNMENT);
        *was_empty |= is_empty;
    }

    pub fn join(&mut self, other: Seen) {
        for (key, count) in other.numbers {
            *self.numbers.entry(key).or_default() += count;
        }
        for (number, count) in other.lines {
            *self.lines.entry(number).or_default() += count;
        }
        for (export, count) in other.scans {
            *self.scans.entry(export).or_default() += count;
        }
        for (name, (remainders, was_empty)) in other.buffers {
            let mine = self.buffers.entry(name).or_default();
            *mine = (mine.0 | remainders, mine.1 | was_empty);
        }
    }

    /// How many calls there were of the exports that work on a store.
    pub fn on_stores(&self) -> usize {
        let counted = |export: &&str| NUMBERS.iter().any(|(known, _)| known == export);
        self.numbers.iter().filter(|((export, _), _)| counted(export)).map(|(_, count)| count).sum()
    }

    /// The numbers that an export gave.
    pub fn numbers_of(&self, export: &str) -> Vec<u32> {
        self.numbers.keys().filter(|(known, _)| *known == export).map(|&(_, number)| number).collect()
    }

    pub fn scans_of(&self, export: &str) -> usize {
        self.scans.get(export).copied().unwrap_or(0)
    }

    pub fn numbers_of_lines(&self) -> Vec<u32> {
        self.lines.keys().copied().collect()
    }

    /// How the buffer of this name stood: the remainders by 16, and whether it was empty once.
    pub fn buffer_of(&self, name: &str) -> (Vec<usize>, bool) {
        let (remainders, was_empty) = self.buffers.get(name).copied().unwrap_or_default();
        ((0..ALIGNMENT).filter(|bit| remainders >> bit & 1 == 1).collect(), was_empty)
    }

    /// A line for each export with how often it gave each number.
    pub fn told(&self) -> String {
        let of = |export: &str| -> String {
            let counts = self.numbers.iter().filter(|((known, _), _)| *known == export);
            counts.map(|((_, number), count)| format!(" {number}: {count}")).collect()
        };
        NUMBERS.iter().map(|(export, _)| format!("{export}{}\n", of(export))).collect()
    }
}
