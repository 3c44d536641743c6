//! The report over the stores of standard input, which README.md describes: what the benchmarked programs must write for it. The
//! faults are gathered by code in a map of lists, and nothing is counted on the way.
use reference::lists::Store;
use reference::sound;
use std::collections::{BTreeMap, BTreeSet};
use std::io::{self, Read, Write};

/// The head: kind, whether the last text is written, turns, stores of a group, stores.
const HEAD: usize = 5;

/// One fault: the number of its card, from 0 on over all stores, and its day.
type Note = (usize, u32);

/// What the reports gave, added up, and the last text.
#[derive(Default)]
struct Sums {
    numbers: u64,
    reports: u64,
    bytes: u64,
    last: String,
}

pub fn run() -> Result<(), String> {
    let words = words().map_err(|error| error.to_string())?;
    let head = words.get(..HEAD).ok_or("an input that is cut short")?;
    let (twice, written, turns) = (head[0] == 2, head[1] != 0, u64::from(head[2]));
    let (group, stores) = (head[3] as usize, head[4] as usize);
    let lengths = words.get(HEAD..HEAD + stores).ok_or("lengths that are cut short")?;
    let sums = sums(&words[HEAD + stores..], lengths, group, twice, 1 + turns).ok_or("stores that are cut short")?;
    write(&sums, written).map_err(|error| error.to_string())
}

/// Every turn gives the same.
fn sums(run: &[u32], lengths: &[u32], group: usize, twice: bool, turns: u64) -> Option<Sums> {
    let mut sums = Sums::default();
    let mut at = 0;
    for lengths in lengths.chunks(group) {
        let end = at + lengths.iter().sum::<u32>() as usize;
        let (number, text) = report(run.get(at..end)?, lengths);
        let reports = if twice && number == 0 { 2 * turns } else { turns };
        sums.numbers += turns * number;
        sums.reports += reports;
        sums.bytes += reports * text.len() as u64;
        sums.last = text;
        at = end;
    }
    Some(sums)
}

fn words() -> io::Result<Vec<u32>> {
    let mut bytes = Vec::new();
    io::stdin().read_to_end(&mut bytes)?;
    Ok(bytes.chunks_exact(4).map(|four| u32::from_le_bytes(four.try_into().unwrap())).collect())
}

/// The number and the text; none where the number is not 0.
fn report(run: &[u32], lengths: &[u32]) -> (u64, String) {
    if !(1..=8).contains(&lengths.len()) {
        return (14, String::new());
    }
    match stores(run, lengths) {
        Some(stores) => (0, text(&stores)),
        None => (3, String::new()),
    }
}

fn stores(run: &[u32], lengths: &[u32]) -> Option<Vec<Store>> {
    let mut at = 0;
    let mut stores = Vec::new();
    for &length in lengths {
        let end = at + length as usize;
        stores.push(sound::read(run.get(at..end)?)?);
        at = end;
    }
    (at == run.len()).then_some(stores)
}

fn text(stores: &[Store]) -> String {
    let cards: Vec<_> = stores.iter().flat_map(Store::cards).collect();
    let mut by_code: BTreeMap<u32, Vec<Note>> = BTreeMap::new();
    for (number, card) in cards.iter().enumerate() {
        for fault in &card.faults {
            by_code.entry(fault.entry.code).or_default().push((number, fault.entry.day));
        }
    }
    let lines: String = by_code.iter().map(|(&code, notes)| line(code, notes)).collect();
    lines + &totals(cards.len(), by_code.values().map(Vec::len).sum())
}

fn line(code: u32, notes: &[Note]) -> String {
    let cards: BTreeSet<usize> = notes.iter().map(|&(card, _)| card).collect();
    let days = || notes.iter().map(|&(_, day)| day);
    let (first, last) = (days().min().unwrap(), days().max().unwrap());
    format!("{code} {} {} {first} {last}\n", notes.len(), cards.len())
}

fn totals(cards: usize, entries: usize) -> String {
    let rate = (1000 * entries).checked_div(cards);
    let rate = rate.map_or(String::new(), |whole| format!("{whole} {}\n", 1000 * entries % cards));
    format!("{cards}\n{entries}\n{rate}")
}

fn write(sums: &Sums, written: bool) -> io::Result<()> {
    let Sums { numbers, reports, bytes, last } = sums;
    let sum = last.bytes().fold(0, |sum: u32, byte| sum.wrapping_mul(3).wrapping_add(u32::from(byte)));
    let shown = if written { last } else { "" };
    io::stdout().write_all(format!("{shown}sum {numbers} {reports} {bytes} {sum}\n").as_bytes())
}
