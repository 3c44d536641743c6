//! What the program `desk` makes of the bytes of files: a fresh store, a job, a look, a report, the last answers. Nothing is read or
//! written here; [`crate::desk_files`] does that.
use crate::bytes::{self, Last};
use crate::calls;
use crate::job;
use crate::layout::Offsets;
use crate::lists::{Limits, Store};
use crate::report;
use crate::rules::Bounds;
use crate::sound;

pub const USAGE: &str = "\
desk new FILE CARDS FAULTS [UPPER LOWER]   makes a new store in FILE (bounds 4 and 2 if not given)
desk job FILE < JOB                        runs a job on the store, saves it, writes the answers
desk check FILE                            says whether FILE is a sound store, and what it holds
desk report FILE...                        faults by code over 1 to 8 stores
desk last FILE                             the answers of the last job that was saved
";

/// Why a file is no sound store.
#[derive(Clone, Copy, Debug, PartialEq, Eq)]
pub enum Unfit {
    Length,
    Words,
}

impl Unfit {
    /// What is said of the file, behind its name.
    pub fn says(self) -> &'static str {
        match self {
            Unfit::Length => " is no store: no store has this length. Nothing was done",
            Unfit::Words => " is not a sound store. Nothing was done",
        }
    }
}

/// The store of a file.
pub fn store(file: &[u8]) -> Result<Store, Unfit> {
    if !bytes::is_length(file.len()) {
        return Err(Unfit::Length);
    }
    let words = bytes::to_words(file).ok_or(Unfit::Length)?;
    sound::read(&words).ok_or(Unfit::Words)
}

/// The value of an argument: 0 where it is no number of 1 to 9 digits.
pub fn value(argument: &[u8]) -> u32 {
    let digits = (1..=9).contains(&argument.len()) && argument.iter().all(u8::is_ascii_digit);
    let text = if digits { String::from_utf8_lossy(argument) } else { "0".into() };
    text.parse().unwrap_or(0)
}

/// The file of a fresh store, or Open's refusal.
pub fn fresh(limits: Limits, bounds: Bounds) -> Result<Vec<u8>, u32> {
    // Limits out of range are refused before the words are looked at, so there need be none.
    let length = if limits.in_range() { Offsets::of(limits).end } else { 0 };
    let mut words = vec![0; length];
    match calls::open(&mut words, limits.cards, limits.faults, bounds.upper, bounds.lower) {
        0 => Ok(bytes::of_words(&words)),
        number => Err(number),
    }
}

/// What a refusal by Open means.
pub fn refusal(number: u32) -> &'static str {
    match number {
        1 => "desk: a store has 1 to 1024 cards and 1 to 2048 faults. Nothing was done",
        _ => "desk: the upper bound is 2 to 10, the lower 1 to half of it. Nothing was done",
    }
}

/// What came of a job on a file: its number, all that is written for it, and the file after it.
#[derive(Clone, Debug, PartialEq, Eq)]
pub struct Served {
    pub number: u32,
    pub answers: Vec<u8>,
    pub file: Vec<u8>,
}

/// A text that is too long is refused before the file is looked at. A file that is no whole number of words is no sound store.
pub fn served(file: &[u8], text: &[u8]) -> Served {
    let mut words = bytes::to_words(file).unwrap_or_default();
    let (number, answers) = job::answered(&mut words, text);
    let file = if matches!(number, 0 | 10) { bytes::of_words(&words) } else { file.to_vec() };
    Served { number, answers, file }
}

/// What `desk check` writes of a sound store.
pub fn held(store: &Store) -> String {
    let Limits { cards, faults } = store.limits;
    let Bounds { upper, lower } = store.format.bounds();
    format!(
        "sound\ncards {} of {cards}\nfaults {} of {faults}\nbuckets {}\nbounds {upper} {lower}\n",
        store.cards_held(),
        store.faults_held(),
        store.buckets.len()
    )
}

/// The report over these files, or the place of the first that is no sound store.
pub fn reported(files: &[Vec<u8>]) -> Result<String, (usize, Unfit)> {
    let read = |(place, file): (usize, &Vec<u8>)| store(file).map_err(|unfit| (place, unfit));
    let stores = files.iter().enumerate().map(read).collect::<Result<Vec<_>, _>>()?;
    Ok(report::text(&stores))
}

/// The answers that were saved with this very file, if they were.
pub fn last_answers(file: &[u8], last: &[u8]) -> Option<Vec<u8>> {
    Last::read(last).filter(|last| last.file == file).map(|last| last.answers)
}
