//! Slips that are filed late: a listing goes by rising day, equal days as filed, and the words stay as filed.
mod common;

use common::{numbers, sent, Reader};
use reference::calls;
use reference::job;
use reference::lists::Entry;
use reference::report::report;

/// Faults as days and codes.
type Faults = [(u32, u32)];

/// In the order of filing, and as they are listed.
const CASES: [(&Faults, &Faults); 12] = [
    (&[], &[]),
    (&[(5, 9)], &[(5, 9)]),
    (&[(1, 1), (2, 2), (3, 3)], &[(1, 1), (2, 2), (3, 3)]),
    (&[(3, 3), (2, 2), (1, 1)], &[(1, 1), (2, 2), (3, 3)]),
    (&[(2, 1), (1, 2)], &[(1, 2), (2, 1)]),
    // one day: the codes do not matter
    (&[(7, 3), (7, 1), (7, 2), (7, 1)], &[(7, 3), (7, 1), (7, 2), (7, 1)]),
    // a late slip stands behind those of its day, also with a smaller code
    (&[(10, 5), (20, 9), (10, 4)], &[(10, 5), (10, 4), (20, 9)]),
    (&[(20, 9), (10, 5), (20, 8), (10, 4)], &[(10, 5), (10, 4), (20, 9), (20, 8)]),
    // late by one place, and by all
    (&[(1, 1), (3, 3), (2, 2), (4, 4)], &[(1, 1), (2, 2), (3, 3), (4, 4)]),
    (&[(2, 2), (3, 3), (4, 4), (1, 1)], &[(1, 1), (2, 2), (3, 3), (4, 4)]),
    // the first and the last day
    (&[(65_535, 1), (1, 9_999), (65_535, 9_999), (1, 1)], &[(1, 9_999), (1, 1), (65_535, 1), (65_535, 9_999)]),
    // days that a byte alone, or a text, would order otherwise
    (&[(300, 1), (256, 2), (255, 3), (1_000, 4), (9, 5)], &[(9, 5), (255, 3), (256, 2), (300, 1), (1_000, 4)]),
];

/// A store with room for one card more, and a card 7 with these faults.
fn reader_of(faults: &Faults) -> Reader {
    let mut reader = Reader::open(2, 8);
    reader.enter("7");
    for (count, &(day, code)) in (1..).zip(faults) {
        assert_eq!(reader.file("7", day, code), [0, 1, 0, count]);
    }
    reader
}

fn flat(faults: &Faults) -> Vec<u32> {
    faults.iter().flat_map(|&(day, code)| [day, code]).collect()
}

#[test]
fn show_and_withdraw_list_by_day() {
    for (filed, listed) in CASES {
        let mut reader = reader_of(filed);
        let (count, pairs) = (filed.len(), flat(listed));
        assert_eq!(reader.show("7"), [0, 1, 0, count as u32], "{filed:?}");
        assert_eq!(reader.room[..2 * count], pairs, "{filed:?}");
        reader.room.fill(0);
        assert_eq!(reader.withdraw("7"), [0, 1, 0, count as u32], "{filed:?}");
        assert_eq!(reader.room[..2 * count], pairs, "{filed:?}");
    }
}

#[test]
fn a_job_lists_by_day() {
    for (filed, listed) in CASES {
        let filings: String = filed.iter().map(|(day, code)| format!("F 7 {day} {code}\n")).collect();
        let answers: String = (1..=filed.len()).map(|count| format!("0 1 0 {count}\n")).collect();
        let pairs: String = listed.iter().map(|(day, code)| format!(" {day}:{code}")).collect();
        let listing = format!("0 1 0 {}{pairs}\n", filed.len());
        let text = format!("E 7\n{filings}S 7\nW 7\nS 7\n");
        let output = format!("0 0 0 0\n{answers}{listing}{listing}7 0 0 0\n");
        assert_eq!(String::from_utf8(job::depot(text.as_bytes())).unwrap(), output);
    }
}

/// A room of exactly two words a fault, and one with words behind, which stay; one that is a word short is left, and so is the store.
#[test]
fn the_room() {
    let (filed, listed) = CASES[7];
    let mut reader = reader_of(filed);
    let (bytes, length) = sent("7");
    for size in [0, 1, 7, 8, 9, 16] {
        let mut room = vec![77; size];
        let answer = calls::show(&reader.words, &mut [0; 384], bytes, length, &mut room);
        if size < 8 {
            assert_eq!((numbers(answer), room), ([10, 1, 0, 4], vec![77; size]));
        } else {
            assert_eq!((numbers(answer), room), ([0, 1, 0, 4], [flat(listed), vec![77; size - 8]].concat()));
        }
    }
    let (words, mut room) = (reader.words.clone(), vec![77; 7]);
    assert_eq!(calls::withdraw(&mut reader.words, &mut [0; 384], bytes, length, &mut room).number, 10);
    assert_eq!((room, &reader.words), (vec![77; 7], &words));
}

#[test]
fn the_words_stay_as_filed() {
    for (filed, _) in CASES {
        let mut reader = reader_of(filed);
        let words = reader.words.clone();
        reader.show("7");
        assert_eq!(reader.words, words);
        let lists = reader.lists();
        let card = lists.cards().next().unwrap();
        let entries: Vec<Entry> = filed.iter().map(|&(day, code)| Entry { day, code }).collect();
        assert_eq!(card.faults.iter().map(|fault| fault.entry).collect::<Vec<_>>(), entries);
        assert!(card.faults.iter().map(|fault| fault.cell).eq(1..=filed.len() as u32));
    }
}

/// The free cells after a withdrawal stand in filing order, not in that of the listing.
#[test]
fn freed_cells_stand_as_filed() {
    let mut reader = Reader::open(2, 8);
    for (serial, day) in [("A", 9), ("B", 9), ("A", 5), ("B", 8), ("A", 7), ("A", 5)] {
        reader.enter(serial);
        reader.file(serial, day, 1);
    }
    assert_eq!(reader.withdraw("A"), [0, 1, 0, 4]);
    assert_eq!(reader.room[..8], [5, 1, 5, 1, 7, 1, 9, 1]);
    assert_eq!(reader.lists().free_faults, [1, 3, 5, 6, 7, 8]);
    // Entered again, the card begins with no faults, and takes the cells as the first card did.
    reader.enter("A");
    assert_eq!(reader.show("A"), [0, 1, 0, 0]);
    for (day, code) in [(6, 2), (5, 3), (6, 1)] {
        reader.file("A", day, code);
    }
    assert_eq!(reader.show("A"), [0, 1, 0, 3]);
    assert_eq!(reader.room[..6], [5, 3, 6, 2, 6, 1]);
    let lists = reader.lists();
    let card = lists.cards().find(|card| card.serial.bytes() == b"A").unwrap();
    assert_eq!(card.faults.iter().map(|fault| fault.cell).collect::<Vec<_>>(), [1, 3, 5]);
}

/// A day that is changed in the words of a store, as an older reader may have left it, is listed at its new place.
#[test]
fn the_listing_is_read_from_the_words() {
    let mut reader = reader_of(&[(10, 1), (20, 2), (30, 3)]);
    let day_of_cell_3 = 288 + 9 * 2 + 3 * 2 + 1;
    assert_eq!(reader.words[day_of_cell_3], 30);
    reader.words[day_of_cell_3] = 10;
    assert_eq!(reader.show("7"), [0, 1, 0, 3]);
    assert_eq!(reader.room[..6], [10, 1, 10, 3, 20, 2]);
}

/// A report has the same text whatever the order of filing.
#[test]
fn a_report_knows_no_order() {
    for (filed, listed) in CASES {
        let text = |faults| {
            let reader = reader_of(faults);
            let mut out = [0; 200];
            let wrote = report(&reader.words, &[reader.words.len() as u32], &mut [0; 384], &mut out);
            (wrote.number, out[..wrote.count as usize].to_vec())
        };
        assert_eq!(text(filed), text(listed), "{filed:?}");
    }
}

/// The example of docs/JOB.md: a command a line and, behind two spaces or more, its answer.
#[test]
fn the_example_of_the_page() {
    let page = include_str!("../../../docs/JOB.md");
    let (mut text, mut answers) = (String::new(), String::new());
    for line in page.split("```\n").nth(1).unwrap().lines() {
        let (command, answer) = line.split_once("  ").unwrap();
        text += &format!("{command}\n");
        answers += &format!("{}\n", answer.trim_start());
    }
    assert_eq!(String::from_utf8(job::depot(text.as_bytes())).unwrap(), answers);
}
