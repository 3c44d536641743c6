//! Jobs: texts of valid and malformed lines, with output that is too short by a byte, just enough, or more.
use crate::damages::in_use;
use crate::desk::Desk;
use crate::made;
use crate::stores::{laid, Stock};
use reference::job::{self, Tally};
use reference::random::Random;
use reference::rules::Bounds;

/// Jobs on small stores and on such that grow and contract, each store through several of them.
pub fn jobs(desk: &mut Desk, random: &mut Random, stores: usize) {
    for turn in 0..stores {
        let (cards, faults) = if turn % 3 == 0 { (70, 30) } else { (6, 8) };
        let mut stock = in_use(desk, random, cards, faults, cards as usize);
        let mut tally = some_tally(random);
        for _ in 0..8 {
            let lines = random.below(if turn % 3 == 0 { 60 } else { 25 });
            let text = some_text(random, lines, stock.labels);
            run(desk, random, &mut stock, &text, &mut tally);
        }
    }
}

/// A job with one byte of output too few, with none, and then as it fits. What it wants is counted by the second program.
fn run(desk: &mut Desk, random: &mut Random, stock: &mut Stock, text: &[u8], tally: &mut Tally) {
    let scratch = made::scratch(random);
    let mut long = vec![0; 40_000];
    let wanted =
        job::run(&mut stock.words.clone(), &mut scratch.clone(), text, &mut long, &mut Tally::default()).bytes as usize;
    for length in [wanted.saturating_sub(1), 0] {
        let short = made::bytes(length);
        let [number, ..] = desk.job(&mut stock.words.clone(), &scratch, text, &short, &mut tally.clone());
        assert_eq!(number == 10, wanted > 0, "{length} bytes of output, where {wanted} are wanted");
    }
    let more = made::one_of(random, &[0, 0, 1, 100]);
    let fits = made::bytes(wanted + more);
    let [number, ..] = desk.job(&mut stock.words, &scratch, text, &fits, tally);
    assert_ne!(number, 10, "output that is enough");
}

/// Texts about the longest one, of lines that are answered by 12, by 4 and by 7, and of one line.
pub fn lengths(desk: &mut Desk, random: &mut Random) {
    let mut stock = in_use(desk, random, 4, 4, 20);
    for length in [0, 1, 16_383, 16_384, 16_385, 20_000] {
        for line in ["S a\n", "S NEW-2\n", "E 7 \n", "S 1234567890ABCDEF-------------------------------------------\n"]
        {
            let text: Vec<u8> = line.bytes().cycle().take(length).collect();
            desk.job(&mut stock.words, &made::bytes(384), &text, &made::bytes(60_000), &mut Tally::default());
        }
        let text = vec![b'7'; length];
        desk.job(&mut stock.words, &made::bytes(384), &text, &made::bytes(20), &mut Tally::default());
    }
}

/// The longest answers: all faults of a largest store are one card's, or half of them.
pub fn longest_answers(desk: &mut Desk) {
    for cards in [1, 300] {
        let mut words = laid(Bounds { upper: 10, lower: 1 }, cards, 2_048);
        let text = b"S 0\nS 0\nW 0\nS 0\n";
        for length in [10, 20_000, 22_545, 50_000, 70_000] {
            desk.job(&mut words, &made::bytes(384), text, &made::bytes(length), &mut Tally::default());
        }
    }
}

/// Counts near the bottom or near the top, where they stay.
fn some_tally(random: &mut Random) -> Tally {
    let mut count = || if made::rarely(random, 3) { u64::MAX - random.below(9) as u64 } else { random.below(9) as u64 };
    Tally {
        entries: count(),
        withdrawals: count(),
        filings: count(),
        splits: count(),
        contractions: count(),
        comparisons: count(),
    }
}

/// So many lines, most of them well formed; the last one with or without its LF.
fn some_text(random: &mut Random, lines: usize, labels: usize) -> Vec<u8> {
    let mut text = Vec::new();
    for _ in 0..lines {
        text.extend(some_line(random, labels));
        text.push(b'\n');
    }
    if made::rarely(random, 3) {
        text.pop();
    }
    text
}

fn some_line(random: &mut Random, labels: usize) -> Vec<u8> {
    let label = String::from_utf8(made::label(random.below(labels))).expect("a label");
    let (day, code) = made::fault(random);
    let line = match random.below(14) {
        0..=4 => format!("E {label}"),
        5..=8 => format!("F {label} {day} {code}"),
        9 | 10 => format!("S {label}"),
        11 | 12 => format!("W {label}"),
        _ => return malformed(random, &label),
    };
    line.into_bytes()
}

/// A line that is answered by 12 or by 4, or that noise has changed.
fn malformed(random: &mut Random, label: &str) -> Vec<u8> {
    let line = match random.below(9) {
        0 => String::new(),
        1 => "E ".to_string(),
        2 => format!("E  {label}"),
        3 => format!("s {label}"),
        4 => format!("F {label} 1"),
        5 => format!("F {label} 0000000001 2"),
        6 => format!("F {label} 000000001 2"),
        7 => format!("S {label}{}", "-".repeat(random.below(60))),
        _ => {
            let mut line = format!("F {label} 12 34").into_bytes();
            let at = random.below(line.len());
            line[at] = random.word() as u8;
            return line;
        }
    };
    line.into_bytes()
}
