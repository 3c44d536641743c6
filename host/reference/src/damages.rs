//! What `reference soundness` prints: stores that are opened or filled by calls, every word of them damaged in turn, and whether what
//! stands there then is sound, 1 or 0. The proved program `store_soundness` has to print the same lines.
use crate::calls::{self, SCRATCH};
use crate::layout;
use crate::lists::{Limits, Store};
use crate::rules::Bounds;
use crate::serial::Serial;
use crate::sound::sound;
use std::ops::Range;

pub fn report() -> String {
    [smallest(), lengths(), small(), in_use(), grown(), largest(), loaded()].concat().concat()
}

fn smallest() -> Vec<String> {
    let mut words = vec![u32::MAX; 300];
    let limits = [(0, 1), (1, 0), (1_025, 1), (1, 2_049), (2, 1)];
    let refused = limits.map(|(cards, faults)| open(&mut words, cards, faults));
    let bounds = [(1, 1), (11, 5), (4, 0), (4, 3), (4, 1 << 31), (4, u32::MAX), (u32::MAX, 2)];
    let refused_too = bounds.map(|(upper, lower)| open_with(&mut words, 1, 1, upper, lower));
    let orders = [(0, 1), (2, 1)].map(|(cards, faults)| open_with(&mut words, cards, faults, 4, 3));
    let opened = open(&mut words, 1, 1);
    [&refused[..], &refused_too, &orders, &[opened], &damaged(&words, 0..300)].concat()
}

fn lengths() -> Vec<String> {
    let mut words = vec![u32::MAX; 301];
    let opened = open(&mut words[..300], 1, 1);
    let cut = [0, 15, 16, 287, 288, 299, 300, 301].map(|n| format!("length {n}: {}\n", verdict(&words[..n])));
    [&[opened][..], &cut].concat()
}

fn small() -> Vec<String> {
    let mut words = vec![u32::MAX; 321];
    let opened = open(&mut words, 3, 2);
    [&[opened][..], &damaged(&words, 0..321)].concat()
}

fn largest() -> Vec<String> {
    let mut words = vec![u32::MAX; 15_648];
    let mut lines = vec![open(&mut words, 1_024, 2_048)];
    for part in [0..48, 287..306, 9_495..9_510, 15_642..15_648] {
        lines.extend(damaged(&words, part));
    }
    lines
}

/// A store that calls have led to: three cards in two buckets, one with two faults, one with one, one with none, and free cells out
/// of order. The proved program has the same words by heart.
fn in_use() -> Vec<String> {
    let mut words = vec![u32::MAX; 348];
    let opened = open(&mut words, 5, 5);
    let mut reader = Reader { words };
    reader.enter(&["P", "7", "Q", "A-B"]);
    reader.file("Q", 9, 9);
    reader.file("Q", 8, 8);
    reader.withdraw("P");
    reader.enter(&["007"]);
    reader.file("007", 100, 12);
    reader.file("A-B", 1, 1);
    reader.withdraw("Q");
    reader.file("007", 65_535, 9_999);
    reader.enter(&["R", "S"]);
    reader.withdraw("R");
    reader.withdraw("S");
    let words = reader.words;
    let now = format!("in use: {}\n", verdict(&words));
    [&[opened, now][..], &damaged(&words, 0..348)].concat()
}

/// A store of 17 buckets with 34 cards, the fewest that they allow. Its lists are made as they are, without calls.
fn grown() -> Vec<String> {
    let mut words = vec![u32::MAX; 651];
    let opened = open(&mut words, 40, 1);
    let mut store = Store::fresh(Limits { cards: 40, faults: 1 }, Bounds::USUAL);
    store.state = store.state.grown();
    store.buckets.push(Vec::new());
    for byte in (b'0'..=b'9').chain(b'A'..=b'X') {
        let serial = Serial::new(&[byte]).expect("a serial");
        let bucket = store.home(&serial);
        store.place(bucket, serial);
    }
    let words = layout::encode(&store);
    let now = format!("grown: {}\n", verdict(&words));
    [&[opened, now][..], &damaged(&words, 0..54), &damaged(&words, 288..315)].concat()
}

/// A store of 256 buckets with more cards than its upper bound allows; one of 16 buckets with as many as it allows; one of 17 with the
/// fewest that its lower bound allows; and one of format 1.
fn loaded() -> Vec<String> {
    let over = loaded_with(2, 1, |reader| reader.enter_numbered(515));
    let most = loaded_with(10, 5, |reader| reader.enter_numbered(160));
    let fewest = loaded_with(10, 5, |reader| {
        reader.enter_numbered(161);
        reader.withdraw_numbered(76);
    });
    let first_format = loaded_with(4, 2, |reader| {
        (reader.words[0], reader.words[14]) = (1, 0);
        reader.enter_numbered(69);
    });
    [over, most, fewest, first_format].concat()
}

/// How the store was opened and has grown; its header, its directory and its first bucket words damaged; and other bounds for it.
fn loaded_with(upper: u32, lower: u32, filled: fn(&mut Reader)) -> Vec<String> {
    let mut words = vec![u32::MAX; 5_691];
    let opened = open_with(&mut words, 600, 1, upper, lower);
    let mut reader = Reader { words };
    filled(&mut reader);
    let words = reader.words;
    let now = format!("loaded {} {} {}: {}\n", words[3], words[4], words[5], verdict(&words));
    [&[opened, now][..], &damaged(&words, 0..34), &other_bounds(&words)].concat()
}

// ---- the calls, each of which has to be done

struct Reader {
    words: Vec<u32>,
}

impl Reader {
    fn enter(&mut self, labels: &[&str]) {
        for label in labels {
            let (bytes, length) = sent(label);
            assert_eq!(calls::enter(&mut self.words, &mut [0; SCRATCH], bytes, length).number, 0, "enter {label}");
        }
    }

    fn enter_numbered(&mut self, count: u32) {
        (0..count).for_each(|k| self.enter(&[&numbered(k)]));
    }

    fn withdraw_numbered(&mut self, count: u32) {
        (0..count).for_each(|k| self.withdraw(&numbered(k)));
    }

    fn file(&mut self, label: &str, day: u32, code: u32) {
        let (bytes, length) = sent(label);
        let answer = calls::file(&mut self.words, &mut [0; SCRATCH], bytes, length, day, code);
        assert_eq!(answer.number, 0, "file {label}");
    }

    fn withdraw(&mut self, label: &str) {
        let (bytes, length) = sent(label);
        let answer = calls::withdraw(&mut self.words, &mut [0; SCRATCH], bytes, length, &mut [0; 4]);
        assert_eq!(answer.number, 0, "withdraw {label}");
    }
}

/// Two letters.
fn numbered(k: u32) -> String {
    [k / 26, k % 26].map(|letter| char::from(b'A' + letter as u8)).iter().collect()
}

fn sent(label: &str) -> ([u8; 16], usize) {
    (Serial::new(label.as_bytes()).expect("a serial").padded(), label.len())
}

// ---- the lines

fn verdict(words: &[u32]) -> u32 {
    u32::from(sound(words))
}

/// Opened with the bounds 4 and 2.
fn open(words: &mut [u32], cards: u32, faults: u32) -> String {
    open_with(words, cards, faults, 4, 2)
}

/// The limits and the bounds, the number of Open and the verdict.
fn open_with(words: &mut [u32], cards: u32, faults: u32, upper: u32, lower: u32) -> String {
    let number = calls::open(words, cards, faults, upper, lower);
    format!("open {cards} {faults} {upper} {lower}: {number} {}\n", verdict(words))
}

/// A line for each place: the place, the value there, and a verdict for each other value put there.
fn damaged(words: &[u32], places: Range<usize>) -> Vec<String> {
    places.map(|at| format!("{at} {} {}\n", words[at], verdicts(words, at))).collect()
}

fn verdicts(words: &[u32], at: usize) -> String {
    values(words[at]).map(|value| verdict(&with(words, at, value)).to_string()).collect()
}

/// 1 more, 1 less, 16 more in the highest byte, 0 to 6, and the highest value.
fn values(was: u32) -> impl Iterator<Item = u32> {
    let near = [was.wrapping_add(1), was.wrapping_sub(1), was.wrapping_add(16 << 24)];
    near.into_iter().chain(0..=6).chain([u32::MAX])
}

/// A line for each upper bound up to 11: the verdicts with lower bounds 0 to 6, and the words else as they are.
fn other_bounds(words: &[u32]) -> Vec<String> {
    let judged = |bounds: u32| verdict(&with(words, 14, bounds)).to_string();
    let line =
        |upper: u32| format!("upper {upper}: {}\n", (0..=6).map(|l| judged(256 * upper + l)).collect::<String>());
    (0..=11).map(line).collect()
}

fn with(words: &[u32], at: usize, value: u32) -> Vec<u32> {
    let mut words = words.to_vec();
    words[at] = value;
    words
}
