//! Which refusal comes first, and what scratch, room, output and tally hold after each.
mod common;

use common::{numbers, sent, serials, Reader};
use reference::calls;
use reference::job::{self, Done, Tally};
use reference::rules;

const TOO_LONG: &str = "0123456789ABCDEFG";

fn done(number: u32, lines: u32, bytes: u32) -> Done {
    Done { number, lines, bytes }
}

/// A store that can hold one card and one fault, and holds them.
fn full_reader() -> Reader {
    let mut reader = Reader::open(1, 1);
    reader.enter("7");
    reader.file("7", 100, 12);
    reader
}

/// The number of Open on so many words, which a refusal leaves as they were.
fn opened(length: usize, (cards, faults): (u32, u32), (upper, lower): (u32, u32)) -> u32 {
    let mut words = vec![7; length];
    let number = calls::open(&mut words, cards, faults, upper, lower);
    assert!(number == 0 || words == vec![7; length], "C {cards}, F {faults}, U {upper}, L {lower}, {length} words");
    number
}

/// Lengths other than that of the least store.
const OTHER_LENGTHS: [usize; 4] = [0, 287, 299, 301];

#[test]
fn open_tests_limits_before_bounds_before_length() {
    for limits in [(0, 1), (1_025, 1), (1, 0), (1, 2_049), (u32::MAX, u32::MAX)] {
        for bounds in [(4, 2), (4, 3), (0, 0)] {
            assert_eq!(opened(300, limits, bounds), 1, "{limits:?} {bounds:?}");
            assert_eq!(opened(299, limits, bounds), 1, "{limits:?} {bounds:?}");
        }
    }
    for length in OTHER_LENGTHS {
        assert_eq!(opened(length, (1, 1), (1, 1)), 15, "{length} words");
        assert_eq!(opened(length, (1, 1), (4, 2)), 2, "{length} words");
    }
    assert_eq!(opened(300, (1, 1), (4, 2)), 0);
}

/// Numbers about the edges of bounds, and numbers of which the double or 256 times the number does not fit a word.
const BOUNDS: [u32; 20] = [
    0,
    1,
    2,
    3,
    4,
    5,
    6,
    7,
    8,
    9,
    10,
    11,
    12,
    256,
    1 << 24,
    (1 << 24) + 4,
    1 << 31,
    (1 << 31) + 1,
    (1 << 31) + 5,
    u32::MAX,
];

#[test]
fn open_takes_an_upper_bound_to_10_and_a_lower_one_to_half_of_it() {
    for upper in BOUNDS {
        for lower in BOUNDS {
            let fits =
                [2, 3, 4, 5, 6, 7, 8, 9, 10].contains(&upper) && lower >= 1 && u64::from(lower) * 2 <= upper.into();
            assert_eq!(opened(300, (1, 1), (upper, lower)), if fits { 0 } else { 15 }, "U {upper}, L {lower}");
        }
    }
}

#[test]
fn a_serial_is_judged_with_its_length() {
    let mut reader = Reader::open(2, 2);
    let mut enter = |bytes: [u8; 16], length| calls::enter(&mut reader.words, &mut [0; 384], bytes, length).number;
    let seven = sent("7").0;
    assert_eq!(enter(seven, 0), 4);
    assert_eq!(enter(seven, 2), 4);
    assert_eq!(enter(sent("77").0, 1), 4);
    assert_eq!(enter([b'7'; 16], 17), 4);
    assert_eq!(enter([b'7'; 16], usize::MAX), 4);
    assert_eq!(enter(seven, 1), 0);
    assert_eq!(enter([b'7'; 16], 16), 0);
    for byte in 0..=255_u8 {
        let valid = b"0123456789ABCDEFGHIJKLMNOPQRSTUVWXYZ-".contains(&byte);
        let mut bytes = [0; 16];
        bytes[0] = byte;
        let refused = calls::show(&reader.words, &mut [0; 384], bytes, 1, &mut []).number == 4;
        assert_eq!(refused, !valid, "byte {byte}");
    }
}

#[test]
fn a_filing_meets_the_refusals_in_their_order() {
    let mut reader = full_reader();
    assert_eq!(reader.file(TOO_LONG, 0, 0), [4, 0, 0, 0]);
    for (day, code) in [(0, 1), (65_536, 1), (1, 0), (1, 10_000)] {
        assert_eq!(reader.file("NOT-HELD", day, code), [5, 0, 0, 0]);
        assert_eq!(reader.file("7", day, code), [5, 0, 0, 0]);
    }
    assert_eq!(reader.file("07", 1, 1), [7, 1, 0, 0]);
    assert_eq!(reader.file("7", 1, 1), [9, 1, 0, 0]);
}

#[test]
fn too_little_room_is_refused_and_left() {
    let mut reader = full_reader();
    let (bytes, length) = sent("7");
    for size in [0, 1] {
        let (words, mut room) = (reader.words.clone(), vec![77; size]);
        assert_eq!(numbers(calls::show(&reader.words, &mut [0; 384], bytes, length, &mut room)), [10, 1, 0, 1]);
        let withdrawn = calls::withdraw(&mut reader.words, &mut [0; 384], bytes, length, &mut room);
        assert_eq!(numbers(withdrawn), [10, 1, 0, 1]);
        assert_eq!((room, &reader.words), (vec![77; size], &words));
    }
    let mut room = [77; 4];
    assert_eq!(numbers(calls::show(&reader.words, &mut [0; 384], bytes, length, &mut room)), [0, 1, 0, 1]);
    assert_eq!(room, [100, 12, 77, 77]);
}

#[test]
fn scratch_is_cleared_unless_it_is_too_short() {
    let (bytes, length) = sent("7");
    for size in [0, 1, 383] {
        let mut reader = full_reader();
        reader.words[0] = 9;
        let mut scratch = vec![5; size];
        assert_eq!(calls::enter(&mut reader.words, &mut scratch, bytes, length).number, 11);
        assert_eq!(scratch, vec![5; size]);
    }
    // Done, not sound, a bad serial, already held: each leaves 384 zeros and the rest.
    let mut damaged = full_reader();
    damaged.words[0] = 9;
    for (mut reader, length, number) in
        [(Reader::open(1, 1), 1, 0), (damaged, 1, 3), (full_reader(), 0, 4), (full_reader(), length, 6)]
    {
        let mut scratch = vec![5; 386];
        assert_eq!(calls::enter(&mut reader.words, &mut scratch, bytes, length).number, number);
        assert_eq!(scratch, [&[0; 384][..], &[5, 5]].concat());
    }
}

// ---- the job

struct Ran {
    done: Done,
    out: Vec<u8>,
    scratch: Vec<u8>,
    tally: Tally,
}

/// Runs a job with output that was filled with dots, and scratch with fives.
fn run(reader: &mut Reader, scratch: usize, text: &str, out: usize) -> Ran {
    let mut ran = Ran { done: done(0, 0, 0), out: vec![b'.'; out], scratch: vec![5; scratch], tally: Tally::default() };
    ran.done = job::run(&mut reader.words, &mut ran.scratch, text.as_bytes(), &mut ran.out, &mut ran.tally);
    ran
}

#[test]
fn a_job_refused_whole_leaves_all_but_scratch() {
    let long = "E 7\n".repeat(4_097);
    let cases = [(383, &long[..], 9, 11), (385, &long, 9, 13), (385, "E 7", 9, 3), (385, "", 9, 3), (385, "", 2, 0)];
    for (scratch, text, format, number) in cases {
        let mut reader = full_reader();
        reader.words[0] = format;
        let words = reader.words.clone();
        let ran = run(&mut reader, scratch, text, 20);
        assert_eq!(ran.done, done(number, 0, 0));
        assert_eq!((ran.out, ran.tally, &reader.words), (vec![b'.'; 20], Tally::default(), &words));
        let cleared = if number == 11 { vec![5; 383] } else { [&[0; 384][..], &[5]].concat() };
        assert_eq!(ran.scratch, cleared, "number {number}");
    }
}

#[test]
fn a_job_of_exactly_the_longest_length_is_run() {
    let text = "\n".repeat(16_384);
    let ran = run(&mut Reader::open(1, 1), 384, &text, 9 * 16_384);
    assert_eq!(ran.done, done(0, 16_384, 9 * 16_384));
}

#[test]
fn a_job_stops_before_the_line_whose_answer_does_not_fit() {
    let text = "E A\nE B\nF A 1 2\nS A";
    let whole = "0 0 0 0\n0 0 0 0\n0 1 0 1\n0 1 0 1 1:2\n";
    let ends = [0, 8, 16, 24, 36];
    for room in 0..40 {
        let mut reader = Reader::open(4, 4);
        let ran = run(&mut reader, 384, text, room);
        let lines = ends.iter().filter(|&&end| end > 0 && end <= room).count();
        let number = if lines == 4 { 0 } else { 10 };
        assert_eq!(ran.done, done(number, lines as u32, ends[lines] as u32), "{room} bytes");
        assert_eq!(ran.out[..ends[lines]], whole.as_bytes()[..ends[lines]]);
        assert!(ran.out[ends[lines]..].iter().all(|&byte| byte == b'.'));
        assert_eq!(reader.lists().cards_held(), lines.min(2));
        assert_eq!(ran.tally.filings, u64::from(lines > 2));
        assert_eq!(ran.tally.comparisons, [0, 0, 0, 1, 2][lines]);
    }
}

#[test]
fn lines_and_fields() {
    let line_65 = format!("F 7 1 {:059}", 1);
    let cases = [
        ("", ""),
        ("\n", "12 0 0 0\n"),
        ("\n\n", "12 0 0 0\n12 0 0 0\n"),
        ("S 7", "7 0 0 0\n"),
        ("E ", "4 0 0 0\n"),
        ("E", "12 0 0 0\n"),
        ("E  7", "12 0 0 0\n"),
        ("E 7 ", "12 0 0 0\n"),
        (" E 7", "12 0 0 0\n"),
        ("e 7", "12 0 0 0\n"),
        ("EE 7", "12 0 0 0\n"),
        ("E 7\r", "4 0 0 0\n"),
        ("E\t7", "12 0 0 0\n"),
        ("E 7\0", "4 0 0 0\n"),
        ("E 0123456789ABCDEF0", "4 0 0 0\n"),
        ("F 7 1", "12 0 0 0\n"),
        ("F 7 1 1 1", "12 0 0 0\n"),
        ("F 7  1", "12 0 0 0\n"),
        ("F a x 1", "12 0 0 0\n"),
        ("F a 0 1", "4 0 0 0\n"),
        ("F 7 0 1", "5 0 0 0\n"),
        ("F 7 000000001 1", "7 0 0 0\n"),
        ("F 7 0000000001 1", "12 0 0 0\n"),
        ("F 7 999999999 1", "5 0 0 0\n"),
        ("F 7 +1 1", "12 0 0 0\n"),
        ("F 7 -1 1", "12 0 0 0\n"),
        (&line_65, "12 0 0 0\n"),
    ];
    for (text, answers) in cases {
        assert_eq!(String::from_utf8(job::depot(text.as_bytes())).unwrap(), answers, "{text:?}");
    }
}

/// A line of 64 bytes is judged by its fields: here a serial of 62 bytes, which is too long. One byte more is not well formed.
#[test]
fn the_longest_line() {
    assert_eq!(job::depot(format!("E {}", "7".repeat(62)).as_bytes()), b"4 0 0 0\n");
    assert_eq!(job::depot(format!("E {}", "7".repeat(63)).as_bytes()), b"12 0 0 0\n");
}

#[test]
fn the_tally_counts_what_was_accepted_and_stays_at_its_top() {
    let mut reader = Reader::open(80, 4);
    let entries: String = (0..65).map(|n| format!("E C{n}\n")).collect();
    let text = entries + "E C1\nF C1 1 1\nF C1 0 0\nS C1\nW C1\nW C1\nnonsense\n";
    let ran = run(&mut reader, 384, &text, 16_384);
    let Tally { entries, withdrawals, filings, splits, contractions, .. } = ran.tally;
    assert_eq!([entries, withdrawals, filings, splits, contractions], [65, 1, 1, 1, 0]);
    let answers = String::from_utf8(ran.out[..ran.done.bytes as usize].to_vec()).unwrap();
    let comparisons = answers.lines().map(|line| line.split(' ').nth(1).unwrap().parse::<u64>().unwrap());
    assert_eq!(ran.tally.comparisons, comparisons.sum::<u64>());

    let mut top = Tally { entries: u64::MAX, comparisons: u64::MAX - 1, ..Tally::default() };
    let text = b"E NEW\nS NEW\nS NEW\nS NEW\n";
    job::run(&mut reader.words, &mut [0; 384], text, &mut [0; 200], &mut top);
    assert_eq!((top.entries, top.comparisons), (u64::MAX, u64::MAX));
}

/// A split of an empty bucket scans nothing and counts all the same, and so does the contraction that takes it back.
#[test]
fn the_tally_counts_changes_of_the_number_of_buckets() {
    let mut reader = Reader::open(80, 1);
    let outside_bucket_0 = |serial: &String| rules::code(serial.as_bytes()) % 16 != 0;
    let held: Vec<String> = serials(100).into_iter().filter(outside_bucket_0).take(65).collect();
    let text: String = held.iter().map(|serial| format!("E {serial}\n")).collect();
    let ran = run(&mut reader, 384, &text, 16_384);
    assert_eq!((ran.tally.splits, last_scanned(&ran)), (1, "0".to_string()));
    let text: String = held.iter().take(32).map(|serial| format!("W {serial}\n")).collect();
    let ran = run(&mut reader, 384, &text, 16_384);
    assert_eq!((ran.tally.contractions, last_scanned(&ran)), (1, "0".to_string()));
}

fn last_scanned(ran: &Ran) -> String {
    let answers = String::from_utf8(ran.out[..ran.done.bytes as usize].to_vec()).unwrap();
    answers.lines().last().unwrap().split(' ').nth(2).unwrap().to_string()
}

#[test]
fn depot_ends_with_the_number_of_a_job_that_failed() {
    assert_eq!(job::depot("E 7\n".repeat(4_097).as_bytes()), b"13 0 0 0\n");
    let output = job::depot("\n".repeat(2_000).as_bytes());
    assert_eq!(output.len(), 9 * 1_820 + 9);
    assert!(output.ends_with(b"12 0 0 0\n10 0 0 0\n"));
}
