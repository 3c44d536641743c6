//! Every export of the archive against the second program, call by call: answers, words, room, scratch, output and tally.
//! What is lent stands between guard zones, at every address that its type allows. The same calls are made in each run.
mod damages;
mod desk;
mod guarded;
mod jobs;
mod made;
mod reports;
mod seen;
mod stores;

use desk::Desk;
use reference::random::Random;
use reference::rules;
use seen::{Seen, BUFFERS, NUMBERS, NUMBERS_OF_LINES};
use std::thread;

/// The fewest calls of the exports that work on a store.
const CALLS: usize = 100_000;

/// A part of the calls, on random numbers of its own.
type Part = fn(&mut Desk, &mut Random);

const PARTS: [Part; 6] = [
    |desk, random| stores::small(desk, random, 150, 250),
    |desk, random| {
        stores::small(desk, random, 80, 250);
        stores::opens(desk, random, 4_000);
        labels(desk, random, 2_000);
    },
    |desk, random| stores::grown(desk, random, 36),
    |desk, random| stores::tides(desk, random, 300),
    |desk, random| {
        stores::largest(desk, random, 12);
        damages::every_word(desk, random, 3);
        damages::lengths(desk, random);
    },
    |desk, random| {
        jobs::jobs(desk, random, 60);
        jobs::lengths(desk, random);
        jobs::longest_answers(desk);
        reports::reports(desk, random, 200);
        reports::largest(desk);
    },
];

/// Labels of any bytes and lengths, padded and coded, and addresses of their codes.
fn labels(desk: &mut Desk, random: &mut Random, count: usize) {
    for _ in 0..count {
        let length = random.below(40);
        let label = random.bytes(length);
        let before = random.bytes(16).try_into().expect("sixteen bytes");
        desk.label(&label, before);
        let (maxp, p) = (made::one_of(random, &[16, 32, 64, 128, 256, 24]), random.below(130) as u32);
        desk.address(rules::code(&label), maxp, p);
    }
}

/// All parts, each in a thread, and what was seen.
fn run() -> Seen {
    let start = |(at, part): (usize, Part)| {
        thread::spawn(move || {
            let seed = 0x5eed_1000 + at as u64;
            let mut desk = Desk::new(seed << 8);
            part(&mut desk, &mut Random::new(seed));
            desk.seen
        })
    };
    let threads: Vec<_> = PARTS.into_iter().enumerate().map(start).collect();
    let mut seen = Seen::default();
    threads.into_iter().for_each(|thread| seen.join(thread.join().expect("calls that agree")));
    seen
}

#[test]
fn all_calls_agree() {
    let seen = run();
    println!("{}", seen.told());
    assert!(seen.on_stores() >= CALLS, "only {} calls", seen.on_stores());
    for (export, numbers) in NUMBERS {
        assert_eq!(seen.numbers_of(export), numbers, "the numbers that {export} gave");
    }
    let (splits, contractions) = (seen.scans_of("enter"), seen.scans_of("withdraw"));
    assert!(splits > 300 && contractions > 300, "only {splits} splits and {contractions} contractions");
    assert_eq!(seen.numbers_of_lines(), NUMBERS_OF_LINES, "the numbers of lines");
    for (name, size, can_be_empty) in BUFFERS {
        let (remainders, was_empty) = seen.buffer_of(name);
        assert_eq!(remainders, (0..16).step_by(size).collect::<Vec<_>>(), "the addresses of {name}, modulo 16");
        assert_eq!(was_empty, can_be_empty, "{name} of length 0");
    }
}
