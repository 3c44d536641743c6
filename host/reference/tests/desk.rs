//! Stores in files: bytes and words both ways, the file beside a store, lengths, and the commands of `reference desk` with each refusal.
mod common;

use common::Reader;
use reference::bytes::{self, Last};
use reference::desk::{self, Served};
use reference::desk_files::{self, Said};
use reference::jobs;
use reference::lists::Limits;
use reference::random::Random;
use reference::rules::Bounds;
use std::collections::HashSet;
use std::ffi::OsString;
use std::fs;
use std::io::{self, Read};
use std::path::PathBuf;
use std::process;

const STALE: &str = " as it stands: the job they belong to was not saved, or ";

/// A folder of its own for one test, which goes when the test ends.
struct Folder(PathBuf);

impl Folder {
    fn new(test: &str) -> Folder {
        let path = std::env::temp_dir().join(format!("reference-desk-{}-{test}", process::id()));
        fs::create_dir_all(&path).unwrap();
        Folder(path)
    }

    fn path(&self, name: &str) -> String {
        self.0.join(name).to_str().unwrap().to_owned()
    }

    fn names(&self) -> Vec<String> {
        let entries = fs::read_dir(&self.0).unwrap();
        let mut names: Vec<String> =
            entries.map(|entry| entry.unwrap().file_name().to_str().unwrap().to_owned()).collect();
        names.sort();
        names
    }
}

impl Drop for Folder {
    fn drop(&mut self) {
        let _ = fs::remove_dir_all(&self.0);
    }
}

fn run(words: &[&str], input: &[u8]) -> Said {
    let arguments: Vec<OsString> = words.iter().map(OsString::from).collect();
    desk_files::told(&arguments, &mut &input[..])
}

/// What was said, as text and status.
fn told(words: &[&str], input: &str) -> (String, String, i32) {
    let Said { out, err, status } = run(words, input.as_bytes());
    (String::from_utf8(out).unwrap(), String::from_utf8(err).unwrap(), status)
}

fn says(out: &str, err: &str, status: i32) -> (String, String, i32) {
    (out.to_owned(), err.to_owned(), status)
}

fn fresh(cards: u32, faults: u32, upper: u32, lower: u32) -> Vec<u8> {
    desk::fresh(Limits { cards, faults }, Bounds { upper, lower }).unwrap()
}

/// A text cut behind random lines of it.
fn cut(random: &mut Random, text: &[u8]) -> Vec<Vec<u8>> {
    let mut days = vec![Vec::new()];
    for line in text.split_inclusive(|&byte| byte == b'\n') {
        days.last_mut().unwrap().extend(line);
        if random.below(40) == 0 {
            days.push(Vec::new());
        }
    }
    days
}

// ---- bytes

#[test]
fn the_lowest_byte_first() {
    assert_eq!(bytes::of_words(&[1, 0x0403_0201, u32::MAX]), [1, 0, 0, 0, 1, 2, 3, 4, 255, 255, 255, 255]);
    assert_eq!(bytes::to_words(&[1, 2, 3, 4, 0, 0, 0, 128]), Some(vec![0x0403_0201, 1 << 31]));
    assert_eq!(bytes::to_words(&[]), Some(Vec::new()));
}

#[test]
fn bytes_and_words_both_ways() {
    let mut random = Random::new(7);
    for count in 0..200 {
        let file: Vec<u8> = (0..4 * count).map(|_| random.below(256) as u8).collect();
        let words = bytes::to_words(&file).unwrap();
        assert_eq!(words.len(), count);
        assert_eq!(bytes::of_words(&words), file);
        assert_eq!(bytes::to_words(&bytes::of_words(&words)), Some(words));
    }
}

#[test]
fn a_part_of_a_word_is_no_word() {
    for count in (0..100).filter(|count| count % 4 != 0) {
        assert_eq!(bytes::to_words(&vec![0; count]), None);
    }
}

/// The lengths of stores by the layout's sum, for all limits.
#[test]
fn the_lengths_that_stores_have() {
    let words = (1..=1_024).flat_map(|cards| (1..=2_048).map(move |faults| 288 + 9 * cards + 3 * faults));
    let lengths: HashSet<usize> = words.map(|words| 4 * words).collect();
    for length in 0..70_000 {
        assert_eq!(bytes::is_length(length), lengths.contains(&length), "{length}");
    }
    assert!(bytes::is_length(1_200) && bytes::is_length(62_592));
}

#[test]
fn a_fresh_file_is_as_long_as_its_limits_ask() {
    for (cards, faults) in [(1, 1), (16, 16), (256, 512), (1_024, 2_048)] {
        let file = fresh(cards, faults, 4, 2);
        assert_eq!(file.len(), 4 * (288 + 9 * cards as usize + 3 * faults as usize));
        assert_eq!(bytes::to_words(&file).unwrap(), Reader::open(cards, faults).words);
    }
}

// ---- the file beside a store

#[test]
fn the_last_answers_both_ways() {
    for (words, answers) in [(0, ""), (3, "0 0 0 0\n"), (300, "")] {
        let last = Last { file: vec![7; 4 * words], answers: answers.into() };
        let beside = last.bytes();
        assert_eq!(beside.len(), 4 + 4 * words + answers.len());
        assert_eq!(bytes::to_words(&beside[..4]).unwrap(), [words as u32]);
        assert_eq!(Last::read(&beside), Some(last));
    }
}

#[test]
fn last_answers_that_are_cut_or_lie() {
    let last = Last { file: vec![7; 12], answers: b"0 0 0 0\n".to_vec() };
    let beside = last.bytes();
    for end in 0..16 {
        assert_eq!(Last::read(&beside[..end]), None, "{end} bytes");
    }
    assert_eq!(Last::read(&beside[..16]).unwrap().answers, b"");
    assert_eq!(Last::read(&[255; 100]), None);
    assert_eq!(desk::last_answers(&[7; 12], &beside), Some(b"0 0 0 0\n".to_vec()));
    assert_eq!(desk::last_answers(&[7; 8], &beside), None);
    assert_eq!(desk::last_answers(&[7, 7, 7, 7, 7, 7, 7, 7, 7, 7, 7, 8], &beside), None);
}

// ---- jobs on files

#[test]
fn the_answers_of_depot() {
    for job in jobs::all() {
        assert_eq!(desk::served(&fresh(256, 512, 4, 2), &job.input).answers, job.output, "{}", job.name);
    }
}

/// Over all jobs that are done to their end, on stores of several limits and bounds.
#[test]
fn days_leave_the_bytes_of_one_job() {
    let mut random = Random::new(11);
    let kinds = [(256, 512, 4, 2), (1_024, 2_048, 10, 1), (40, 60, 2, 1), (1, 1, 6, 3)];
    let (mut done, mut parts) = (0, 0);
    for (number, job) in jobs::all().iter().enumerate() {
        let (cards, faults, upper, lower) = kinds[number % kinds.len()];
        let file = fresh(cards, faults, upper, lower);
        let whole = desk::served(&file, &job.input);
        if whole.number != 0 {
            continue;
        }
        let (mut file, mut answers) = (file, Vec::new());
        for day in cut(&mut random, &job.input) {
            let Served { number, answers: more, file: after } = desk::served(&file, &day);
            assert_eq!(number, 0, "{}", job.name);
            (file, parts) = (after, parts + 1);
            answers.extend(more);
        }
        assert!(file == whole.file && answers == whole.answers, "{}", job.name);
        done += 1;
    }
    assert!(done > 200 && parts > 4 * done, "{done} jobs in {parts} days");
}

#[test]
fn a_job_of_a_file_is_saved_with_its_answers() {
    let folder = Folder::new("saved");
    let store = folder.path("store");
    assert_eq!(told(&["new", &store, "16", "16"], ""), says("0\n", "", 0));
    assert_eq!(fs::read(&store).unwrap(), fresh(16, 16, 4, 2));
    assert_eq!(told(&["job", &store], "E 7\nF 7 100 12\n"), says("0 0 0 0\n0 1 0 1\n", "", 0));
    let file = fs::read(&store).unwrap();
    assert_eq!(file, desk::served(&fresh(16, 16, 4, 2), b"E 7\nF 7 100 12\n").file);
    let last = [&480_u32.to_le_bytes()[..], &file, b"0 0 0 0\n0 1 0 1\n"].concat();
    assert_eq!(fs::read(folder.path("store.last")).unwrap(), last);
    assert_eq!(told(&["last", &store], ""), says("0 0 0 0\n0 1 0 1\n", "", 0));
    assert_eq!(folder.names(), ["store", "store.last"]);
}

/// Shows, refused lines and empty jobs leave both files, and so do an entry and its withdrawal.
#[test]
fn a_job_that_changes_nothing_leaves_both_files() {
    let folder = Folder::new("unchanged");
    let store = folder.path("store");
    told(&["new", &store, "16", "16"], "");
    told(&["job", &store], "E 7\n");
    let files = || [fs::read(&store).unwrap(), fs::read(folder.path("store.last")).unwrap()];
    let times = || [&store, &folder.path("store.last")].map(|path| fs::metadata(path).unwrap().modified().unwrap());
    let (before, then) = (files(), times());
    for job in ["", "S 7\n", "E 7\nE x\n", "E 8\nW 8\n"] {
        assert_eq!(told(&["job", &store], job).2, 0);
        assert!(files() == before && times() == then, "{job}");
    }
    assert_eq!(told(&["last", &store], ""), says("0 0 0 0\n", "", 0));
}

#[test]
fn bounds_are_those_that_were_given() {
    let folder = Folder::new("bounds");
    let (usual, other) = (folder.path("usual"), folder.path("other"));
    told(&["new", &usual, "100", "9"], "");
    told(&["new", &other, "100", "9", "2", "1"], "");
    let job: String = (0..65).map(|card| format!("E {card}\n")).collect();
    told(&["job", &usual], &job);
    told(&["job", &other], &job);
    let held = |buckets, bounds| format!("sound\ncards 65 of 100\nfaults 0 of 9\nbuckets {buckets}\nbounds {bounds}\n");
    assert_eq!(told(&["check", &usual], ""), says(&held(17, "4 2"), "", 0));
    assert_eq!(told(&["check", &other], ""), says(&held(33, "2 1"), "", 0));
}

#[test]
fn a_store_of_format_1_is_served_and_told_by_its_bounds() {
    let file = bytes::of_words(&Reader::format_1(8, 8).words);
    let after = desk::served(&file, b"E 7\n").file;
    assert_eq!(bytes::to_words(&after).unwrap()[0], 1);
    assert!(desk::held(&desk::store(&after).unwrap()).ends_with("bounds 4 2\n"));
}

#[test]
fn a_report_over_files() {
    let folder = Folder::new("report");
    let (north, south) = (folder.path("north"), folder.path("south"));
    for (store, job) in [(&north, "E 7\nE 07\nF 7 100 12\n"), (&south, "E 7\nF 7 90 12\nF 7 91 3\n")] {
        told(&["new", store, "8", "8"], "");
        told(&["job", store], job);
    }
    assert_eq!(told(&["report", &north], ""), says("12 1 1 100 100\n2\n1\n500 0\n", "", 0));
    let both = "3 1 1 91 91\n12 2 2 90 100\n3\n3\n1000 0\n";
    assert_eq!(told(&["report", &north, &south], ""), says(both, "", 0));
}

// ---- refusals

#[test]
fn how_to_use_it() {
    let usage = told(&[], "").0;
    assert_eq!(told(&[], ""), says(&usage, "", 0));
    let nine: Vec<&str> = ["report"].into_iter().chain(["x"; 9]).collect();
    let wrong: [&[&str]; 11] = [
        &["x"],
        &[""],
        &["new", "x"],
        &["new", "x", "1"],
        &["new", "x", "1", "1", "4"],
        &["new", "x", "1", "1", "4", "2", "1"],
        &["job"],
        &["check", "x", "y"],
        &["report"],
        &nine,
        &["last"],
    ];
    for words in wrong {
        assert_eq!(told(words, ""), says("", usage.trim_end(), 1), "{words:?}");
    }
}

#[test]
fn an_argument_that_is_no_number_counts_as_0() {
    for (argument, value) in [("0", 0), ("7", 7), ("007", 7), ("999999999", 999_999_999), ("000000001", 1)] {
        assert_eq!(desk::value(argument.as_bytes()), value, "{argument}");
    }
    for argument in ["", "x", "1x", "+1", "-1", " 1", "1 ", "1000000000", "0000000001", "99999999999999999999"] {
        assert_eq!(desk::value(argument.as_bytes()), 0, "{argument}");
    }
}

#[test]
fn open_refuses_limits_before_bounds() {
    let folder = Folder::new("open");
    let store = folder.path("store");
    let limits = says("1\n", "desk: a store has 1 to 1024 cards and 1 to 2048 faults. Nothing was done", 1);
    let bounds = says("15\n", "desk: the upper bound is 2 to 10, the lower 1 to half of it. Nothing was done", 1);
    for [cards, faults] in [["0", "5"], ["1025", "5"], ["5", "0"], ["5", "2049"], ["x", "5"], ["5", "1000000000"]] {
        assert_eq!(told(&["new", &store, cards, faults], ""), limits);
        assert_eq!(told(&["new", &store, cards, faults, "1", "1"], ""), limits);
    }
    for [upper, lower] in [["1", "1"], ["11", "1"], ["4", "0"], ["4", "3"], ["5", "3"], ["x", "1"], ["4", "x"]] {
        assert_eq!(told(&["new", &store, "5", "5", upper, lower], ""), bounds);
    }
    assert!(folder.names().is_empty());
}

#[test]
fn a_name_that_is_taken() {
    let folder = Folder::new("taken");
    let store = folder.path("store");
    told(&["new", &store, "5", "5"], "");
    let there = format!("desk: {store} is there already. Nothing was done");
    assert_eq!(told(&["new", &store, "5", "5"], ""), says("", &there, 1));
    assert_eq!(folder.names(), ["store"]);
}

#[test]
fn a_lock_that_is_there() {
    let folder = Folder::new("lock");
    let store = folder.path("store");
    told(&["new", &store, "5", "5"], "");
    fs::write(folder.path("store.new"), "something").unwrap();
    let at_work = format!(
        "desk: {store}.new is there: another desk is at work, or one was cut off. Nothing was done. \
         If none is at work, remove {store}.new; desk last {store} shows what was answered last"
    );
    assert_eq!(told(&["job", &store], "E 7\n"), says("", &at_work, 1));
    assert_eq!(fs::read(folder.path("store.new")).unwrap(), b"something");
    assert_eq!(fs::read(&store).unwrap(), fresh(5, 5, 4, 2));
}

#[test]
fn files_that_are_no_sound_store() {
    let folder = Folder::new("unsound");
    let store = folder.path("store");
    let whole = fresh(5, 5, 4, 2);
    let length = format!("desk: {store} is no store: no store has this length. Nothing was done");
    let words = format!("desk: {store} is not a sound store. Nothing was done");
    let mut damaged = whole.clone();
    damaged[20] = 1;
    let longer = [&whole[..], &[0; 12]].concat();
    let odd = [&whole[..], &[0]].concat();
    let cases =
        [(odd, &length), (Vec::new(), &length), (vec![0; 62_604], &length), (damaged, &words), (longer, &words)];
    for (file, sentence) in cases {
        fs::write(&store, &file).unwrap();
        assert_eq!(told(&["check", &store], ""), says("not sound\n", sentence, 1));
        assert_eq!(told(&["job", &store], "E 7\n"), says("3 0 0 0\n", sentence, 1));
        assert_eq!(told(&["report", &store], ""), says("", sentence, 1));
        assert_eq!(fs::read(&store).unwrap(), file);
        assert_eq!(folder.names(), ["store"]);
    }
}

#[test]
fn a_report_names_the_file_that_is_unsound() {
    let folder = Folder::new("named");
    let (good, bad) = (folder.path("good"), folder.path("bad"));
    told(&["new", &good, "5", "5"], "");
    fs::write(&bad, [0; 1_200]).unwrap();
    let sentence = format!("desk: {bad} is not a sound store. Nothing was done");
    assert_eq!(told(&["report", &good, &bad, &good], ""), says("", &sentence, 1));
}

#[test]
fn a_job_that_is_too_long_goes_before_the_file() {
    let folder = Folder::new("long");
    let store = folder.path("store");
    let sentence = "desk: the job has more than 16384 bytes. Nothing was done";
    for file in [fresh(5, 5, 4, 2), vec![0; 1_200], vec![0; 7]] {
        fs::write(&store, &file).unwrap();
        assert_eq!(told(&["job", &store], &"E".repeat(16_385)), says("13 0 0 0\n", sentence, 1));
        assert_eq!(fs::read(&store).unwrap(), file);
    }
}

/// The lines before the one that does not fit are saved, and the closing line stands among the saved answers.
#[test]
fn a_job_that_is_stopped_by_10() {
    let folder = Folder::new("stopped");
    let store = folder.path("store");
    told(&["new", &store, "5", "600"], "");
    let job = "E 7\n".to_owned() + &"F 7 65535 9999\n".repeat(600) + &"S 7\n".repeat(100);
    let (out, err, status) = told(&["job", &store], &job);
    let sentence = "desk: done, but the job has stopped before a line whose answer did not fit; \
                    send the rest from that line on";
    assert_eq!((err.as_str(), status), (sentence, 2));
    assert!(out.ends_with("\n10 0 0 0\n"));
    assert_eq!(told(&["last", &store], ""), says(&out, "", 0));
    assert!(told(&["check", &store], "").0.contains("faults 600 of 600\n"));
}

#[test]
fn last_answers_of_another_file() {
    let folder = Folder::new("stale");
    let (store, beside) = (folder.path("store"), folder.path("store.last"));
    told(&["new", &store, "5", "5"], "");
    let none = format!("desk: there are no saved answers for {store}");
    assert_eq!(told(&["last", &store], ""), says("", &none, 1));
    told(&["job", &store], "E 7\n");
    let last = fs::read(&beside).unwrap();
    let sentence = format!("desk: the saved answers are not those of {store}{STALE}{store} was changed otherwise");
    for others in [&last[..100], &last[..0], &last[4..], b"something"] {
        fs::write(&beside, others).unwrap();
        assert_eq!(told(&["last", &store], ""), says("", &sentence, 1));
    }
    fs::write(&beside, &last).unwrap();
    fs::write(&store, fresh(5, 5, 4, 2)).unwrap();
    assert_eq!(told(&["last", &store], ""), says("", &sentence, 1));
}

#[test]
fn a_file_that_is_not_there() {
    let folder = Folder::new("missing");
    let store = folder.path("store");
    for command in ["job", "check", "report"] {
        let (out, err, status) = told(&[command, &store], "E 7\n");
        assert_eq!((out.as_str(), status), ("", 1));
        assert!(err.contains("No such file or directory. Nothing was done"), "{err}");
    }
    assert!(folder.names().is_empty());
}

/// What came before a read that fails is not run.
#[test]
fn an_input_that_fails() {
    struct Failing;
    impl Read for Failing {
        fn read(&mut self, _: &mut [u8]) -> io::Result<usize> {
            Err(io::Error::from_raw_os_error(5))
        }
    }
    let folder = Folder::new("input");
    let store = folder.path("store");
    told(&["new", &store, "5", "5"], "");
    let arguments = [OsString::from("job"), OsString::from(&store)];
    let said = desk_files::told(&arguments, &mut b"E 7\n".chain(Failing));
    assert_eq!((said.out, said.status), (Vec::new(), 1));
    assert_eq!(fs::read(&store).unwrap(), fresh(5, 5, 4, 2));
    assert_eq!(folder.names(), ["store"]);
}
