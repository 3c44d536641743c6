//! Arguments for calls, valid and invalid ones, made from random numbers.
use crate::desk::Sent;
use card_store::{calls, store_words};
use reference::random::Random;
use reference::rules::Bounds;

/// One of these.
pub fn one_of<T: Copy>(random: &mut Random, things: &[T]) -> T {
    things[random.below(things.len())]
}

/// One time in so many.
pub fn rarely(random: &mut Random, times: usize) -> bool {
    random.below(times) == 0
}

/// A number from this one on, up to that one.
pub fn between(random: &mut Random, from: u32, to: u32) -> u32 {
    from + random.below((to - from + 1) as usize) as u32
}

/// Lent bytes before a call: none is zero, so that a cleared one is seen.
pub fn bytes(length: usize) -> Vec<u8> {
    (1..=251).cycle().take(length).collect()
}

/// Lent words before a call.
pub fn room(length: usize) -> Vec<u32> {
    (70_001..).take(length).collect()
}

/// Scratch, mostly enough.
pub fn scratch(random: &mut Random) -> Vec<u8> {
    let usual = one_of(random, &[384, 384, 384, 385, 400]);
    let any = one_of(random, &[0, 1, 383, 384, 1_000]);
    bytes(if rarely(random, 30) { any } else { usual })
}

/// The label with this number: of any length up to sixteen, some alike but for zeros in front, some of one code.
pub fn label(k: usize) -> Vec<u8> {
    let label = match k % 7 {
        0 => format!("{k}"),
        1 => format!("{:05}", k - 1),
        2 => format!("A-{k}"),
        3 => format!("CARD-{k:011}"),
        4 => format!("AZ{k}"),
        5 => format!("B9{}", k - 1),
        _ => format!("{}{k:04}", "-".repeat(k % 13)),
    };
    label.into_bytes()
}

/// A serial as it travels.
pub fn sent(label: &[u8]) -> Sent {
    Sent { bytes: calls::pad(label), length: label.len() }
}

/// The serial of one of so many labels, or rarely one that is none.
pub fn serial(random: &mut Random, labels: usize) -> Sent {
    let good = sent(&label(random.below(labels)));
    if rarely(random, 12) {
        spoilt(random, good)
    } else {
        good
    }
}

/// With a byte that is not allowed, a byte where none is used, or another length; rarely it is a serial still.
fn spoilt(random: &mut Random, good: Sent) -> Sent {
    let mut sent = good;
    match random.below(6) {
        0 => sent.bytes[random.below(good.length)] = one_of(random, b"az_ /:@[\n\0\xff"),
        1 => sent.bytes[random.below(16)] = random.word() as u8,
        2 => sent.length = one_of(random, &[0, 17, 1 << 31, 1 << 32, usize::MAX]),
        3 => sent.length = random.below(17),
        4 => sent.bytes[15] = b'7',
        _ => sent.length = good.length + 1,
    }
    sent
}

/// A day and a code, mostly in range.
pub fn fault(random: &mut Random) -> (u32, u32) {
    let (day, code) = match random.below(3) {
        0 => (between(random, 1, 65_535), between(random, 1, 9_999)),
        1 => (between(random, 100, 104), between(random, 1, 5)),
        _ => (one_of(random, &[1, 65_535]), one_of(random, &[1, 9_999])),
    };
    match random.below(24) {
        0 => (one_of(random, &[0, 65_536, u32::MAX]), code),
        1 => (day, one_of(random, &[0, 10_000, 1 << 31])),
        _ => (day, code),
    }
}

pub fn bounds(random: &mut Random) -> Bounds {
    let all: Vec<Bounds> = Bounds::all().collect();
    one_of(random, &all)
}

/// The words of a store before it is opened.
pub fn unopened(cards: u32, faults: u32) -> Vec<u32> {
    vec![u32::MAX; store_words(cards, faults)]
}
