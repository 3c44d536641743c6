//! Words that are not those of a sound store, or that are by chance: every call on each of them.
use crate::desk::{Act, Desk};
use crate::made;
use crate::stores::{Stock, EVEN, FILLING};
use reference::job::Tally;
use reference::random::Random;
use reference::rules::Bounds;

/// Every word of some stores in use is damaged in turn, in so many ways.
pub fn every_word(desk: &mut Desk, random: &mut Random, ways: usize) {
    for (cards, faults, count) in [(1, 1, 6), (5, 5, 40), (60, 4, 120)] {
        let stock = in_use(desk, random, cards, faults, count);
        let end = stock.words.len();
        for at in (0..end).filter(|at| end < 400 || at % 5 == 0) {
            for _ in 0..ways {
                let mut words = stock.words.clone();
                words[at] = other(random, words[at]);
                every_call(desk, random, &words, stock.labels);
            }
        }
    }
}

/// Words of sound stores, cut short, with some more behind them, and none at all; and words of no store.
pub fn lengths(desk: &mut Desk, random: &mut Random) {
    let stock = in_use(desk, random, 5, 5, 40);
    let longer = [&stock.words[..], &made::room(20)].concat();
    for length in [0, 1, 15, 16, 31, 287, 288, 299, 300, 347, 348, 349, 352] {
        every_call(desk, random, &longer[..length], stock.labels);
        every_call(desk, random, &made::room(length), stock.labels);
        every_call(desk, random, &vec![0; length], stock.labels);
    }
}

/// A store after some calls, of format 2 or 1.
pub fn in_use(desk: &mut Desk, random: &mut Random, cards: u32, faults: u32, count: usize) -> Stock {
    let bounds = if made::rarely(random, 2) { Bounds::USUAL } else { Bounds { upper: 2, lower: 1 } };
    let mut stock = Stock::open(desk, random, cards, faults, bounds);
    stock.run(desk, random, &FILLING, count);
    stock.run(desk, random, &EVEN, count / 2);
    stock
}

/// Another value for a word: near by, small, with one bit turned, or any.
pub fn other(random: &mut Random, was: u32) -> u32 {
    match random.below(6) {
        0 => was.wrapping_add(1),
        1 => was.wrapping_sub(1),
        2 => between_small(random),
        3 => u32::MAX,
        4 => random.word(),
        _ => was ^ 1 << random.below(32),
    }
}

fn between_small(random: &mut Random) -> u32 {
    made::between(random, 0, 6)
}

/// Each export on a copy of these words.
pub fn every_call(desk: &mut Desk, random: &mut Random, words: &[u32], labels: usize) {
    let scratch = made::scratch(random);
    let (sent, (day, code)) = (made::serial(random, labels), made::fault(random));
    let room = made::room(random.below(24));
    desk.check(words, &scratch);
    for act in [Act::Enter, Act::File { day, code }, Act::Show { room: &room }, Act::Withdraw { room: &room }] {
        desk.call(&mut words.to_vec(), &scratch, sent, &act);
    }
    let text = [b"S ", &made::label(random.below(labels))[..], b"\nE NEW-1\nW ", &made::label(0)].concat();
    let out = made::bytes(random.below(90));
    desk.job(&mut words.to_vec(), &scratch, &text, &out, &mut Tally::default());
    desk.report(words, &[words.len() as u32], &scratch, &out);
}
