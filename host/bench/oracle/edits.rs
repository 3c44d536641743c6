//! Sound stores of several bounds, each with copies of it that have an edit or two.
use reference::calls::{self, SCRATCH};
use reference::layout::{self, Offsets, CARD_WORDS};
use reference::lists::{Format, Limits, Store};
use reference::random::Random;
use reference::rules::Bounds;
use reference::serial::WIDTH;

const SEED: u64 = 20_260_705;

/// What a store is opened with, the calls made on it, and how many edited copies there are of it.
struct Shape {
    limits: Limits,
    bounds: Bounds,
    calls: usize,
    copies: usize,
}

const fn shape(limits: (u32, u32), bounds: (u32, u32), calls: usize, copies: usize) -> Shape {
    let limits = Limits { cards: limits.0, faults: limits.1 };
    let bounds = Bounds { upper: bounds.0, lower: bounds.1 };
    Shape { limits, bounds, calls, copies }
}

/// The last has all 256 buckets, and more cards than twice as many.
const SHAPES: [Shape; 10] = [
    shape((1, 1), (4, 2), 9, 60),
    shape((3, 30), (4, 2), 60, 200),
    shape((20, 80), (4, 2), 50, 400),
    shape((100, 60), (4, 2), 150, 400),
    shape((150, 10), (4, 2), 400, 300),
    shape((200, 60), (4, 2), 300, 300),
    shape((100, 30), (2, 1), 300, 200),
    shape((150, 20), (3, 1), 400, 200),
    shape((200, 20), (10, 5), 600, 200),
    shape((560, 20), (2, 1), 2_000, 200),
];

/// Stores that are in format 1 before the first call.
const IN_FIRST_FORMAT: [Shape; 2] = [shape((20, 20), (4, 2), 60, 100), shape((150, 20), (4, 2), 400, 300)];

pub fn stores() -> Vec<Vec<u32>> {
    let mut random = Random::new(SEED);
    let mut stores = Vec::new();
    for shape in &SHAPES {
        let store = Store::fresh(shape.limits, shape.bounds);
        stores.extend(called_and_edited(&mut random, &store, shape));
    }
    for shape in &IN_FIRST_FORMAT {
        let store = Store { format: Format::One, ..Store::fresh(shape.limits, shape.bounds) };
        stores.extend(called_and_edited(&mut random, &store, shape));
    }
    stores
}

/// The store after its calls, and the edited copies.
fn called_and_edited(random: &mut Random, store: &Store, shape: &Shape) -> Vec<Vec<u32>> {
    let mut words = layout::encode(store);
    call(random, &mut words, shape);
    let copies: Vec<Vec<u32>> = (0..shape.copies).map(|_| edited(random, &words)).collect();
    [vec![words], copies].concat()
}

/// Random calls, half of them entries.
fn call(random: &mut Random, words: &mut [u32], shape: &Shape) {
    for _ in 0..shape.calls {
        let (serial, length) = serial(random, shape.limits.cards);
        let (day, code) = (1 + random.word() % 65_535, 1 + random.word() % 9_999);
        let mut scratch = [0; SCRATCH];
        match random.below(8) {
            0 => calls::withdraw(words, &mut scratch, serial, length, &mut [0; 400]),
            1..=3 => calls::file(words, &mut scratch, serial, length, day, code),
            _ => calls::enter(words, &mut scratch, serial, length),
        };
    }
}

/// One of about twice as many serials as there is room for cards.
fn serial(random: &mut Random, cards: u32) -> ([u8; WIDTH], usize) {
    let text = format!("{:02}", random.below(2 * cards as usize));
    let mut bytes = [0; WIDTH];
    bytes[..text.len()].copy_from_slice(text.as_bytes());
    (bytes, text.len())
}

fn edited(random: &mut Random, words: &[u32]) -> Vec<u32> {
    let mut copy = words.to_vec();
    match random.below(16) {
        0 => copy.truncate(random.below(words.len())),
        1 => copy.push(0),
        2..=5 => copy.swap(place(random, words), place(random, words)),
        6 | 7 => (0..2).for_each(|_| edit(random, &mut copy)),
        8 => double(random, &mut copy),
        9 => lose(random, &mut copy),
        10 => rebound(random, &mut copy),
        _ => edit(random, &mut copy),
    }
    copy
}

/// Any word, or one of the front, which is small beside the cells.
fn place(random: &mut Random, words: &[u32]) -> usize {
    match random.below(3) {
        0 => random.below(16),
        1 => random.below(words.len().min(288)),
        _ => random.below(words.len()),
    }
}

fn edit(random: &mut Random, words: &mut [u32]) {
    let at = place(random, words);
    words[at] = match random.below(6) {
        0 => 0,
        1 => words[at].wrapping_add(1),
        2 => words[at].wrapping_sub(1),
        3 => words[place(random, words)],
        4 => random.below(24) as u32,
        _ => random.word(),
    };
}

/// Another format, or other bounds, in range or not.
fn rebound(random: &mut Random, words: &mut [u32]) {
    let (upper, lower) = (random.below(13) as u32, random.below(7) as u32);
    match random.below(4) {
        0 => words[0] = random.below(4) as u32,
        1 => [words[0], words[14]] = Format::One.words(),
        _ => words[14] = Format::Two(Bounds { upper, lower }).words()[1],
    }
}

/// Where the words of a card cell begin.
fn card_at(words: &[u32], cell: usize) -> usize {
    let limits = Limits { cards: words[1], faults: words[2] };
    Offsets::of(limits).cards + CARD_WORDS * (cell - 1)
}

/// Gives the next card on a chain the serial of the card before it.
fn double(random: &mut Random, words: &mut [u32]) {
    let card = card_at(words, 1 + random.below(words[1] as usize));
    if words[card] != 0 {
        let next = card_at(words, words[card] as usize);
        words.copy_within(card + 1..card + 6, next + 1);
    }
}

/// Leaves a cell out of its chain.
fn lose(random: &mut Random, words: &mut [u32]) {
    let before = if random.below(2) == 0 { 7 } else { card_at(words, 1 + random.below(words[1] as usize)) };
    if words[before] != 0 {
        words[before] = words[card_at(words, words[before] as usize)];
    }
}
