//! The report over several stores: its text, each refusal and what is left after it, and which refusal comes first.
mod common;

use common::Reader;
use reference::report::{report, Wrote};

const REFUSED: [u32; 4] = [11, 14, 3, 10];

/// Stores one behind another, with the list of their lengths.
fn run_of(readers: &[&Reader]) -> (Vec<u32>, Vec<u32>) {
    let words = readers.iter().flat_map(|reader| reader.words.clone()).collect();
    let lengths = readers.iter().map(|reader| reader.words.len() as u32).collect();
    (words, lengths)
}

/// A store of these cards, each with its faults as days and codes.
fn reader_of(cards: &[(&str, &[(u32, u32)])]) -> Reader {
    let mut reader = Reader::open(16, 64);
    for (serial, faults) in cards {
        assert_eq!(reader.enter(serial)[0], 0);
        for &(day, code) in *faults {
            assert_eq!(reader.file(serial, day, code)[0], 0);
        }
    }
    reader
}

fn number(words: &[u32], lengths: &[u32]) -> u32 {
    report(words, lengths, &mut [0; 384], &mut [0; 1_000]).number
}

/// The text of a report that has to be done.
fn text(readers: &[&Reader]) -> String {
    let (words, lengths) = run_of(readers);
    let mut out = [0; 1_000];
    let wrote = report(&words, &lengths, &mut [0; 384], &mut out);
    assert_eq!(wrote.number, 0);
    String::from_utf8(out[..wrote.count as usize].to_vec()).unwrap()
}

#[test]
fn a_line_for_each_code_then_the_totals() {
    let one = reader_of(&[("7", &[(300, 12), (100, 12), (5, 9_999)]), ("07", &[(200, 12), (65_535, 1)])]);
    let two = reader_of(&[("7", &[(1, 12)]), ("A", &[]), ("B", &[(1, 2), (2, 10)])]);
    assert_eq!(text(&[&one]), "1 1 1 65535 65535\n12 3 2 100 300\n9999 1 1 5 5\n2\n5\n2500 0\n");
    let both = "1 1 1 65535 65535\n2 1 1 1 1\n10 1 1 2 2\n12 4 3 1 300\n9999 1 1 5 5\n5\n8\n1600 0\n";
    assert_eq!(text(&[&one, &two]), both);
    assert_eq!(text(&[&two, &one]), both);
}

/// The example of docs/REPORT.md, as the page has it.
#[test]
fn the_example_of_the_page() {
    let first = reader_of(&[("7", &[(100, 12), (130, 12)]), ("07", &[]), ("007", &[(90, 40)])]);
    let second = reader_of(&[("7", &[(110, 12)]), ("A-1", &[]), ("B-22", &[])]);
    let text = text(&[&first, &second]);
    let indented: String = text.lines().map(|line| format!("    {line}\n")).collect();
    let page = include_str!("../../../docs/REPORT.md");
    assert!(page.contains(&format!("\n\n{indented}\n")), "docs/REPORT.md has another text than\n{indented}");
}

#[test]
fn the_same_serial_in_two_stores_is_two_cards() {
    let one = reader_of(&[("7", &[(10, 3), (20, 3)])]);
    assert_eq!(text(&[&one]), "3 2 1 10 20\n1\n2\n2000 0\n");
    assert_eq!(text(&[&one, &one]), "3 4 2 10 20\n2\n4\n2000 0\n");
    assert_eq!(text(&[&one; 8]), "3 16 8 10 20\n8\n16\n2000 0\n");
}

#[test]
fn days_in_any_order() {
    let rising = reader_of(&[("7", &[(1, 3), (40, 3), (65_535, 3)])]);
    let falling = reader_of(&[("7", &[(65_535, 3), (40, 3), (1, 3)])]);
    assert_eq!(text(&[&rising]), "3 3 1 1 65535\n1\n3\n3000 0\n");
    assert_eq!(text(&[&falling]), text(&[&rising]));
}

#[test]
fn the_rate_is_left_out_with_no_cards_only() {
    let empty = Reader::open(4, 4);
    assert_eq!(text(&[&empty]), "0\n0\n");
    assert_eq!(text(&[&empty; 8]), "0\n0\n");
    let mut cards = reader_of(&[("1", &[]), ("2", &[]), ("3", &[])]);
    assert_eq!(text(&[&cards]), "3\n0\n0 0\n");
    cards.file("2", 9, 9);
    assert_eq!(text(&[&empty, &cards]), "9 1 1 9 9\n3\n1\n333 1\n");
    cards.file("2", 9, 9);
    assert_eq!(text(&[&empty, &cards]), "9 2 1 9 9\n3\n2\n666 2\n");
}

#[test]
fn lengths_have_to_add_up_to_the_run() {
    let (one, two) = (Reader::open(1, 1), Reader::open(2, 2));
    let (words, lengths) = run_of(&[&one, &two]);
    assert_eq!((number(&words, &lengths), &lengths[..]), (0, &[300, 312][..]));
    let others = [
        &[300][..],
        &[312],
        &[612],
        &[299, 312],
        &[300, 311],
        &[300, 313],
        &[299, 313],
        &[312, 300],
        &[300, 312, 0],
        &[0, 300, 312],
        &[300, 0, 312],
        &[300, 312, 1],
        &[u32::MAX, 613],
        &[300 + (1 << 31), 312 + (1 << 31)],
        &[u32::MAX, u32::MAX, 614],
    ];
    for lengths in others {
        assert_eq!(number(&words, lengths), 3, "{lengths:?}");
    }
    assert_eq!(number(&words[..611], &lengths), 3);
    assert_eq!(number(&words[..611], &[300, 311]), 3);
    let longer = [&words[..], &[0]].concat();
    assert_eq!(number(&longer, &lengths), 3);
    assert_eq!(number(&longer, &[300, 313]), 3);
    assert_eq!(number(&[], &[0]), 3);
}

#[test]
fn every_store_has_to_be_sound() {
    let reader = reader_of(&[("7", &[(1, 1)])]);
    let (words, lengths) = run_of(&[&reader; 8]);
    assert_eq!(number(&words, &lengths), 0);
    for place in 0..8 {
        let mut words = words.clone();
        words[place * reader.words.len() + 5] += 1;
        assert_eq!(number(&words, &lengths), 3, "place {place}");
    }
}

#[test]
fn no_store_and_more_than_eight() {
    let reader = Reader::open(1, 1);
    for count in [0, 9, 16] {
        let (words, lengths) = run_of(&vec![&reader; count]);
        assert_eq!(number(&words, &lengths), 14, "{count} stores");
        assert_eq!(number(&[], &lengths), 14);
        assert_eq!(number(&words, &vec![0; count]), 14);
        assert_eq!(number(&words, &vec![u32::MAX; count]), 14);
    }
    assert_eq!(number(&reader.words, &[]), 14);
}

#[test]
fn an_output_that_is_too_short_is_left() {
    let reader = reader_of(&[("7", &[(1, 1)])]);
    let (words, lengths) = run_of(&[&reader]);
    let text = text(&[&reader]);
    for size in 0..text.len() {
        let mut out = vec![77; size];
        let wrote = report(&words, &lengths, &mut [0; 384], &mut out);
        assert_eq!((wrote, out), (Wrote { number: 10, count: 0 }, vec![77; size]));
    }
    for more in 0..3 {
        let mut out = vec![77; text.len() + more];
        let wrote = report(&words, &lengths, &mut [0; 384], &mut out);
        assert_eq!(wrote, Wrote { number: 0, count: text.len() as u32 });
        assert_eq!(out, [text.as_bytes(), &vec![77; more]].concat());
    }
}

/// Every set of refusals that apply at once: the first is given, nothing is written, and scratch is cleared past 11.
#[test]
fn refusals_in_their_order() {
    let reader = reader_of(&[("7", &[(1, 1)])]);
    let need = text(&[&reader]).len();
    for applies in 0..16 {
        let applies: Vec<bool> = (0..4).map(|place| applies >> place & 1 == 1).collect();
        let (mut words, mut lengths) = run_of(&[&reader]);
        if applies[2] {
            words[0] = 3;
        }
        for count in if applies[1] { vec![0, 9] } else { vec![1] } {
            lengths.resize(count, 300);
            let mut scratch = vec![77; if applies[0] { 383 } else { 390 }];
            let mut out = vec![88; if applies[3] { need - 1 } else { need }];
            let wrote = report(&words, &lengths, &mut scratch, &mut out);
            let first = REFUSED.into_iter().zip(&applies).find(|(_, &applies)| applies);
            assert_eq!(wrote.number, first.map_or(0, |(number, _)| number), "{applies:?}");
            if applies[0] {
                assert_eq!(scratch, vec![77; 383]);
            } else {
                assert_eq!(scratch, [vec![0; 384], vec![77; 6]].concat());
            }
            if wrote.number != 0 {
                assert_eq!((wrote.count, out), (0, vec![88; if applies[3] { need - 1 } else { need }]));
            }
        }
    }
}

#[test]
fn scratch_of_384_bytes_is_enough() {
    let reader = Reader::open(1_024, 2_048);
    let (words, lengths) = run_of(&[&reader; 8]);
    for (size, expected) in [(0, 11), (383, 11), (384, 0), (385, 0)] {
        let wrote = report(&words, &lengths, &mut vec![255; size], &mut [0; 4]);
        assert_eq!(wrote.number, expected, "{size} bytes");
    }
}
