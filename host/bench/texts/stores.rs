//! Stores for a report, the same in each run: a head, lengths and words, as README.md tells.
use frames::{LOWER, UPPER};
use reference::layout;
use reference::lists::{Entry, Limits, Store};
use reference::random::Random;
use reference::rules::Bounds;
use reference::serial::Serial;

const SEED: u64 = 1_000_003;

const MOST_DAY: usize = 65_535;
const MOST_CODE: usize = 9_999;

pub const NAMES: [&str; 5] = ["full", "few", "quarter", "none", "nine"];

/// How many stores there are, what each is opened for, how many cards and faults it holds, and from how many codes the faults are drawn.
struct Load {
    stores: usize,
    limits: Limits,
    cards: usize,
    faults: usize,
    codes: usize,
}

const MOST: Limits = Limits { cards: 1_024, faults: 2_048 };
const LEAST: Limits = Limits { cards: 1, faults: 1 };

fn named(name: &str) -> Option<Load> {
    let full = Load { stores: 8, limits: MOST, cards: 1_024, faults: 2_048, codes: MOST_CODE };
    let none = Load { stores: 8, limits: LEAST, cards: 0, faults: 0, codes: MOST_CODE };
    match name {
        "full" => Some(full),
        "few" => Some(Load { codes: 64, ..full }),
        "quarter" => Some(Load { cards: 256, faults: 512, ..full }),
        "none" => Some(none),
        "nine" => Some(Load { stores: 9, ..none }),
        _ => None,
    }
}

/// What is done with each group: a report, or one and a second without tests of soundness.
pub struct Task {
    pub twice: bool,
    pub written: bool,
    pub turns: u32,
}

/// The whole input: kind, whether the last text is written, turns, stores of a group, stores, lengths, words.
pub fn input(name: &str, group: u32, task: &Task) -> Option<Vec<u8>> {
    let load = named(name)?;
    let mut random = Random::new(SEED);
    let codes = codes(&mut random, load.codes);
    let stores: Vec<Vec<u32>> = (0..load.stores).map(|_| layout::encode(&store(&mut random, &load, &codes))).collect();
    let kind = if task.twice { 2 } else { 1 };
    let head = [kind, u32::from(task.written), task.turns, group, load.stores as u32];
    let lengths: Vec<u32> = stores.iter().map(|words| words.len() as u32).collect();
    let words = [&head[..], &lengths, &stores.concat()].concat();
    Some(words.iter().flat_map(|word| word.to_le_bytes()).collect())
}

/// So many codes, not all of one length.
fn codes(random: &mut Random, count: usize) -> Vec<u32> {
    let mut all: Vec<u32> = (1..=MOST_CODE as u32).collect();
    for i in 0..count {
        let other = i + random.below(all.len() - i);
        all.swap(i, other);
    }
    all.truncate(count);
    all
}

fn store(random: &mut Random, load: &Load, codes: &[u32]) -> Store {
    let mut store = Store::fresh(load.limits, Bounds { upper: UPPER, lower: LOWER });
    let serials: Vec<Serial> = (0..load.cards).map(|_| enter(random, &mut store)).collect();
    for _ in 0..load.faults {
        let search = store.search(&serials[random.below(serials.len())]);
        let entry = Entry { day: 1 + random.below(MOST_DAY) as u32, code: codes[random.below(codes.len())] };
        store.file(search.bucket, search.place.expect("the card was entered"), entry);
    }
    store
}

/// Enters a card with a serial that is not held yet.
fn enter(random: &mut Random, store: &mut Store) -> Serial {
    loop {
        let text = format!("{:08X}-{:05}", random.word(), random.below(100_000));
        let serial = Serial::new(text.as_bytes()).expect("digits, letters and a hyphen are a serial");
        let search = store.search(&serial);
        if search.place.is_none() {
            store.place(search.bucket, serial.clone());
            store.grow();
            return serial;
        }
    }
}
