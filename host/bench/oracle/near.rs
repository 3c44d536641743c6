//! Stores that are sound but for one rule, and the sound ones beside them: limits and bounds out of range, formats and states that
//! are none, loads over the bounds and under them, and a card in a bucket that is not its own.
use reference::layout;
use reference::lists::{Format, Limits, Store};
use reference::rules::{Bounds, State};
use reference::serial::Serial;

const SMALL: Limits = Limits { cards: 3, faults: 3 };

/// Bounds in range, and out of it: an upper bound under 2 or over 10, a lower bound of 0 or over half the upper one.
const BOUNDS: [(u32, u32); 6] = [(2, 1), (3, 1), (4, 2), (7, 3), (10, 5), (10, 1)];
const BAD_BOUNDS: [(u32, u32); 13] =
    [(0, 0), (0, 1), (1, 0), (1, 1), (11, 1), (11, 5), (4, 0), (2, 2), (3, 2), (4, 3), (5, 3), (9, 5), (10, 6)];

/// Formats, each with a word 14. The first two are sound: format 1 leaves the word 0, format 2 has the bounds in it and nothing above
/// them.
const FORMATS: [(u32, u32); 11] = [
    (1, 0),
    (2, 1_026),
    (1, 1_026),
    (1, 1),
    (2, 0),
    (2, 1_026 + (1 << 16)),
    (2, 1_026 + (1 << 31)),
    (0, 0),
    (0, 1_026),
    (3, 0),
    (3, 1_026),
];

pub fn stores() -> Vec<Vec<u32>> {
    let limits = [(1, 1), (0, 1), (1, 0), (1_024, 2_048), (1_025, 1), (1, 2_049)];
    let states = [(16, 0), (0, 16), (8, 8), (15, 1), (17, u32::MAX), (16, 16), (512, 0)];
    let loads = [BOUNDS.map(at_bounds).concat(), at_top()].concat();
    let lists = [limits.map(with_limits).to_vec(), loads.clone(), [0, 1, 8].map(away_from_home).to_vec()].concat();
    let words = [
        lists.iter().map(layout::encode).collect(),
        loads.iter().map(in_first_format).collect(),
        states.map(with_state).to_vec(),
        BOUNDS.map(with_bounds).to_vec(),
        BAD_BOUNDS.map(with_bounds).to_vec(),
        FORMATS.map(with_format).to_vec(),
    ];
    words.concat()
}

fn serial(number: usize) -> Serial {
    Serial::new(number.to_string().as_bytes()).expect("digits are a serial")
}

fn enter(store: &mut Store, number: usize) {
    let serial = serial(number);
    store.place(store.home(&serial), serial);
}

fn withdraw(store: &mut Store, number: usize) {
    let search = store.search(&serial(number));
    store.remove(search.bucket, search.place.expect("the card was entered"));
}

/// A fresh store, also with limits that Open would refuse.
fn with_limits((cards, faults): (u32, u32)) -> Store {
    Store::fresh(Limits { cards, faults }, Bounds::USUAL)
}

/// A store that grows with `first` cards, and then comes to hold `cards` without growing or contracting any more.
fn with_load(bounds: Bounds, first: usize, cards: usize) -> Store {
    let mut store = Store::fresh(Limits { cards: 1_024, faults: 2 }, bounds);
    for number in 0..first {
        enter(&mut store, number);
        store.grow();
    }
    (first..cards).for_each(|number| enter(&mut store, number));
    (cards..first).for_each(|number| withdraw(&mut store, number));
    store
}

/// In 16 buckets the most cards, and more; in 17 buckets the fewest, and less.
fn at_bounds((upper, lower): (u32, u32)) -> Vec<Store> {
    let bounds = Bounds { upper, lower };
    let (most, fewest) = (16 * upper as usize, 17 * lower as usize);
    let overfull = [most, most + 1, most + 6].map(|cards| with_load(bounds, most, cards));
    let underfull = [fewest, fewest - 1, 0].map(|cards| with_load(bounds, most + 1, cards));
    [overfull, underfull].concat()
}

/// In 255 buckets the most cards for bounds of 2 and 1, and one more; in 256 any number, but not fewer than the lower bound has it.
fn at_top() -> Vec<Store> {
    let bounds = Bounds { upper: 2, lower: 1 };
    let below = [510, 511].map(|cards| with_load(bounds, 510, cards));
    let there = [511, 512, 513, 1_024, 256, 255].map(|cards| with_load(bounds, 511, cards));
    [&below[..], &there].concat()
}

fn in_first_format(store: &Store) -> Vec<u32> {
    layout::encode(&Store { format: Format::One, ..store.clone() })
}

/// One card, so many buckets from its own.
fn away_from_home(buckets: usize) -> Store {
    let mut store = Store::fresh(SMALL, Bounds::USUAL);
    let serial = serial(7);
    store.place((store.home(&serial) + buckets) % 16, serial);
    store
}

/// A fresh store but for its state.
fn with_state((maxp, p): (u32, u32)) -> Vec<u32> {
    let mut store = Store::fresh(SMALL, Bounds::USUAL);
    store.state = State { maxp, p };
    layout::encode(&store)
}

/// A fresh store but for its bounds.
fn with_bounds((upper, lower): (u32, u32)) -> Vec<u32> {
    layout::encode(&Store::fresh(SMALL, Bounds { upper, lower }))
}

/// A fresh store but for its format and its word of bounds.
fn with_format((format, bounds): (u32, u32)) -> Vec<u32> {
    let mut words = layout::encode(&Store::fresh(SMALL, Bounds::USUAL));
    (words[0], words[14]) = (format, bounds);
    words
}
