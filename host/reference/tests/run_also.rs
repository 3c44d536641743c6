//! The worked job of document 01, its marked examples on loads, and the cases that it asks to be run.
mod common;

use common::{serials, Reader};
use reference::job;
use reference::rules::{self, Bounds, State};

#[test]
fn the_worked_job() {
    let input = "E 7\nE 007\nF 007 100 12\nS 7\nS 007\nE 7\nW 007\nS 007\nF 7 0 5\n";
    let output = "0 0 0 0\n0 1 0 0\n0 2 0 1\n0 1 0 0\n0 2 0 1 100:12\n6 1 0 0\n0 2 0 1 100:12\n7 1 0 0\n5 0 0 0\n";
    assert_eq!(String::from_utf8(job::depot(input.as_bytes())).unwrap(), output);
}

#[test]
fn marked_examples_of_the_loads() {
    let (b16, b17) = (State::FRESH, State { maxp: 16, p: 1 });
    assert!(!rules::splits(64, b16, Bounds::USUAL) && rules::splits(65, b16, Bounds::USUAL));
    assert!(!rules::contracts(34, b17, Bounds::USUAL) && rules::contracts(33, b17, Bounds::USUAL));
}

#[test]
fn serials_of_16_and_17_bytes() {
    let mut reader = Reader::open(4, 4);
    assert_eq!(reader.enter("0123456789ABCDE-"), [0, 0, 0, 0]);
    assert_eq!(reader.show("0123456789ABCDE-"), [0, 1, 0, 0]);
    assert_eq!(reader.enter("0123456789ABCDE-F"), [4, 0, 0, 0]);
}

#[test]
fn two_serials_of_one_code() {
    assert_eq!(rules::code(b"AZ"), rules::code(b"B9"));
    let mut reader = Reader::open(4, 4);
    assert_eq!(reader.enter("AZ"), [0, 0, 0, 0]);
    assert_eq!(reader.show("B9"), [7, 1, 0, 0]);
    assert_eq!(reader.enter("B9"), [0, 1, 0, 0]);
    assert_eq!(reader.file("B9", 1, 1), [0, 2, 0, 1]);
    assert_eq!(reader.show("AZ"), [0, 1, 0, 0]);
}

#[test]
fn one_card_at_most() {
    let mut reader = Reader::open(1, 4);
    assert_eq!(reader.enter("7"), [0, 0, 0, 0]);
    assert_eq!(reader.enter("07"), [8, 1, 0, 0]);
    assert_eq!(reader.enter("7"), [6, 1, 0, 0]);
    assert_eq!(reader.withdraw("7"), [0, 1, 0, 0]);
    assert_eq!(reader.enter("07"), [0, 0, 0, 0]);
}

#[test]
fn one_fault_at_most() {
    let mut reader = Reader::open(4, 1);
    reader.enter("7");
    assert_eq!(reader.file("7", 1, 1), [0, 1, 0, 1]);
    assert_eq!(reader.file("7", 2, 2), [9, 1, 0, 0]);
    assert_eq!(reader.withdraw("7"), [0, 1, 0, 1]);
    assert_eq!(reader.room, [1, 1]);
    reader.enter("7");
    assert_eq!(reader.show("7"), [0, 1, 0, 0]);
    assert_eq!(reader.file("7", 3, 3), [0, 1, 0, 1]);
}

#[test]
fn bucket_7_is_split() {
    let mut reader = Reader::open(200, 1);
    for serial in ["7", "07", "007"] {
        reader.enter(serial);
    }
    assert_eq!(reader.chain(7), ["7", "07", "007"]);

    // Bucket 7 is the eighth to be split, when 93 cards stand in 23 buckets.
    let elsewhere: Vec<String> =
        serials(200).into_iter().filter(|serial| rules::code(serial.as_bytes()) % 16 != 7).take(90).collect();
    reader.enter_all(&elsewhere[..89]);
    assert_eq!(reader.chain(7), ["7", "07", "007"]);
    let [number, _, scanned, faults] = reader.enter(&elsewhere[89]);
    assert_eq!([number, scanned, faults], [0, 3, 0]);
    assert_eq!(reader.chain(7), ["07"]);
    assert_eq!(reader.chain(23), ["7", "007"]);
    assert_eq!(reader.show("07"), [0, 1, 0, 0]);
    assert_eq!(reader.show("7"), [0, 1, 0, 0]);
    assert_eq!(reader.show("007"), [0, 2, 0, 0]);

    // One withdrawal below two cards a bucket joins the last bucket behind its partner.
    for serial in elsewhere.iter().take(45) {
        assert_eq!(reader.withdraw(serial)[2], 0);
    }
    assert_eq!(reader.lists().cards_held(), 48);
    assert_eq!(reader.withdraw(&elsewhere[45])[2], 2);
    assert_eq!(reader.chain(7), ["07", "7", "007"]);
}

#[test]
fn freed_cells_are_taken_again_first() {
    let mut reader = Reader::open(4, 8);
    for serial in ["A", "B"] {
        reader.enter(serial);
    }
    for day in 1..=3 {
        reader.file("A", day, 1);
        reader.file("B", day, 2);
    }
    reader.withdraw("A");
    assert_eq!(reader.lists().free_cards, [1, 3, 4]);
    assert_eq!(reader.lists().free_faults, [1, 3, 5, 7, 8]);
}

#[test]
fn the_table_grows_to_256_buckets_and_back() {
    let mut reader = Reader::open(1_024, 1);
    let all = serials(1_024);
    reader.enter_all(&all);
    let full = reader.lists().state;
    // The last split came with card 1,021: 255 buckets hold 1,020.
    assert_eq!(full, State { maxp: 256, p: 0 });
    for serial in &all {
        assert_eq!(reader.withdraw(serial)[0], 0, "{serial}");
    }
    let empty = reader.lists();
    assert_eq!((empty.state, empty.cards_held()), (State::FRESH, 0));
}
