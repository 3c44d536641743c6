//! The same calls on stores of other bounds: the answers are alike but for comparisons and scanned.
mod common;

use common::Reader;
use reference::script;
use std::fs;
use std::path::Path;

/// What a call gave: number, comparisons, scanned and faults, and all of the room, or its checksum.
#[derive(Clone)]
struct Given {
    numbers: [u32; 4],
    room: Vec<u32>,
}

impl Given {
    /// What no bounds change.
    fn lasting(&self) -> (u32, u32, &[u32]) {
        (self.numbers[0], self.numbers[3], &self.room)
    }
}

/// The answers of several stores to the same calls: number, faults and room are those of the first store, and comparisons and
/// scanned differ somewhere.
fn hold_alike(stores: &[Vec<Given>]) {
    let first = &stores[0];
    for given in stores {
        assert_eq!(given.len(), first.len());
        for (at, (other, one)) in given.iter().zip(first).enumerate() {
            assert_eq!(other.lasting(), one.lasting(), "answer {at}");
        }
    }
    for (count, name) in [(1, "comparisons"), (2, "scanned")] {
        let differs = |given: &Vec<Given>| given.iter().zip(first).any(|(a, b)| a.numbers[count] != b.numbers[count]);
        assert!(stores.iter().any(differs), "the {name} are the same in all stores");
    }
}

// ---- calls made here

/// Up to a full store, with slips that come late, and some more than it holds; down by every third card, and then down to none, with
/// some entries after each.
fn made(mut reader: Reader) -> Vec<Given> {
    const CARDS: usize = 180;
    let serial = |n: usize| format!("K{n:03}");
    let mut all = Vec::new();
    let mut note = |numbers, room: &[u32]| all.push(Given { numbers, room: room.to_vec() });
    for n in 0..CARDS + 3 {
        note(reader.enter(&serial(n)), &[]);
        note(reader.file(&serial(n / 2), 200 - n as u32, 1 + n as u32), &[]);
        note(reader.file(&serial(n), n as u32 % 3, 7), &[]);
        note(reader.show(&serial(n / 2)), &reader.room);
    }
    for step in [3, 1] {
        for n in (0..CARDS).step_by(step) {
            reader.room.fill(0);
            note(reader.withdraw(&serial(n)), &reader.room);
            note(reader.show(&serial(n + 1)), &reader.room);
        }
        for n in 0..CARDS / step / 6 {
            note(reader.enter(&serial(n)), &[]);
        }
    }
    all
}

#[test]
fn the_same_calls_on_stores_of_any_bounds() {
    let pairs = [(2, 1), (4, 2), (10, 5), (10, 1), (3, 1), (7, 3)];
    let of_pair = |(upper, lower)| made(Reader::open_with(180, 250, upper, lower));
    let stores = [pairs.map(of_pair).to_vec(), vec![made(Reader::format_1(180, 250))]].concat();
    let numbers: Vec<u32> = stores[0].iter().map(|given| given.numbers[0]).collect();
    assert!([0, 5, 6, 7, 8, 9].iter().all(|number| numbers.contains(number)), "not all of the numbers are there");
    hold_alike(&stores);
}

// ---- the last section of the script

const HEADING: &str = "# one set of calls on stores of other bounds";

/// The blocks of the section, each from one Open to the next.
fn blocks() -> Vec<String> {
    let path = Path::new(env!("CARGO_MANIFEST_DIR")).join("../../crates/store_calls/stdin");
    let text = fs::read_to_string(path).expect("the script");
    let section = &text[text.find(HEADING).expect("the section")..];
    section.split("\nO ").skip(1).map(|block| format!("O {block}\n")).collect()
}

/// The lines of a block that are calls: those behind Open, and behind what makes the store one of format 1.
fn calls_of(block: &str) -> Vec<&str> {
    block.lines().skip(1).filter(|line| !line.starts_with("P ") && !line.is_empty()).collect()
}

/// What the single calls of a block gave, by the letter of the call.
fn played(block: &str) -> Vec<(char, Given)> {
    let told = script::report(&format!("B 384\nR 16\n{block}"));
    let singles = told.lines().filter(|line| line.starts_with(['E', 'F', 'S', 'W']));
    let given = singles.map(|line| {
        let (call, answer) = line.split_once(": ").expect("an answer");
        let fields: Vec<&str> = answer.split(' ').collect();
        let value = |field: &&str| field.parse().expect("a number");
        let numbers = [0, 1, 2, 3].map(|at| value(&fields[at]));
        let room = fields.iter().skip_while(|&&field| field != "room").skip(1).take(1).map(value).collect();
        (call.chars().next().expect("a letter"), Given { numbers, room })
    });
    given.collect()
}

/// Every block has the same calls, and scans cards both at an entry and at a withdrawal.
#[test]
fn the_blocks_of_the_script() {
    let blocks = blocks();
    assert_eq!(blocks.len(), 6);
    let mut stores = Vec::new();
    for block in &blocks {
        assert_eq!(calls_of(block), calls_of(&blocks[0]));
        let given = played(block);
        for letter in ['E', 'W'] {
            let scans = given.iter().any(|(call, given)| *call == letter && given.numbers[2] > 0);
            assert!(scans, "no {letter} scans a card: {:?}", block.lines().next());
        }
        stores.push(given.into_iter().map(|(_, given)| given).collect());
    }
    hold_alike(&stores);
}
