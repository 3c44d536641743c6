//! Reports over runs of stores, sound and damaged, with lengths that add up and such that do not.
use crate::damages::{in_use, other};
use crate::desk::Desk;
use crate::made;
use crate::stores::laid;
use reference::random::Random;
use reference::report;
use reference::rules::Bounds;

/// So many runs of up to nine small stores.
pub fn reports(desk: &mut Desk, random: &mut Random, runs: usize) {
    let stores: Vec<Vec<u32>> = (0..12)
        .map(|k| {
            let (cards, faults) = if k % 4 == 0 { (50, 20) } else { (1 + k, 14) };
            in_use(desk, random, cards, faults, 8 * cards as usize).words
        })
        .collect();
    for _ in 0..runs {
        let count = made::one_of(random, &[0, 1, 2, 3, 3, 4, 5, 8, 8, 9]);
        let run: Vec<&[u32]> = (0..count).map(|_| &stores[random.below(stores.len())][..]).collect();
        let lengths: Vec<u32> = run.iter().map(|store| store.len() as u32).collect();
        one_run(desk, random, &run.concat(), &lengths);
    }
}

/// One run as it is, with output of several lengths, and then damaged.
fn one_run(desk: &mut Desk, random: &mut Random, words: &[u32], lengths: &[u32]) {
    let scratch = made::scratch(random);
    let text = report::stores(words, lengths).map(|stores| report::text(&stores)).expect("sound stores");
    for length in [text.len() - 1, text.len(), text.len() + random.below(50), 0] {
        let [number, _] = desk.report(words, lengths, &scratch, &made::bytes(length));
        let fits = length >= text.len();
        assert!([11, 14, if fits { 0 } else { 10 }].contains(&number), "{number} with {length} bytes");
    }
    let out = made::bytes(text.len() + 20);
    desk.report(words, &odd_lengths(random, lengths), &scratch, &out);
    if !words.is_empty() {
        let mut damaged = words.to_vec();
        let at = random.below(damaged.len());
        damaged[at] = other(random, damaged[at]);
        desk.report(&damaged, lengths, &scratch, &out);
        desk.report(&words[..words.len() - 1], lengths, &scratch, &out);
    }
    desk.report(&[words, &[0]].concat(), lengths, &scratch, &out);
}

/// Lengths of which one is another, of which two have changed places, or one more or fewer.
fn odd_lengths(random: &mut Random, lengths: &[u32]) -> Vec<u32> {
    let mut odd = lengths.to_vec();
    match random.below(4) {
        0 => odd.push(made::one_of(random, &[0, 300, u32::MAX])),
        1 => odd.reverse(),
        2 => drop(odd.pop()),
        _ if !odd.is_empty() => {
            let at = random.below(odd.len());
            odd[at] = other(random, odd[at]);
        }
        _ => {}
    }
    odd
}

/// Eight largest stores with 2,048 faults each, on one card and on many.
pub fn largest(desk: &mut Desk) {
    let stores = [1, 40, 1_024].map(|cards| laid(Bounds { upper: 2, lower: 1 }, cards, 2_048));
    let run: Vec<&[u32]> = stores.iter().cycle().take(8).map(|words| &words[..]).collect();
    let text = report::text(&report::stores(&run.concat(), &[15_648; 8]).expect("sound stores"));
    for length in [text.len() - 1, text.len(), 549_989] {
        desk.report(&run.concat(), &[15_648; 8], &made::bytes(384), &made::bytes(length));
    }
}
