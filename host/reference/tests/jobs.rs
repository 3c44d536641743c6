//! The jobs that `depot` is compared on reach what they are for.
use reference::jobs::{self, Job};
use std::collections::{HashMap, HashSet};

fn answers(job: &Job) -> Vec<Vec<u32>> {
    let text = String::from_utf8(job.output.clone()).unwrap();
    text.lines().map(|line| line.split(' ').take(4).map(|number| number.parse().unwrap()).collect()).collect()
}

fn lines(job: &Job) -> impl Iterator<Item = &[u8]> {
    job.input.split(|&byte| byte == b'\n')
}

#[test]
fn at_least_300_each_with_its_name() {
    let jobs = jobs::all();
    let names: HashSet<&str> = jobs.iter().map(|job| job.name.as_str()).collect();
    assert!(jobs.len() >= 300);
    assert_eq!(names.len(), jobs.len());
}

#[test]
fn the_same_in_each_run() {
    let (first, again) = (jobs::all(), jobs::all());
    assert!(first.iter().zip(&again).all(|(a, b)| a.input == b.input && a.output == b.output));
}

#[test]
fn each_number_is_answered() {
    let numbers: HashSet<u32> = jobs::all().iter().flat_map(answers).map(|answer| answer[0]).collect();
    assert_eq!(numbers, HashSet::from([0, 4, 5, 6, 7, 8, 9, 10, 12, 13]));
}

/// A done Enter or Withdraw with cards scanned has split or contracted the table.
#[test]
fn the_table_grows_and_contracts() {
    for command in [b'E', b'W'] {
        let scanned = jobs::all().iter().any(|job| {
            let asked = lines(job).zip(answers(job));
            asked.into_iter().any(|(line, answer)| line.first() == Some(&command) && answer[0] == 0 && answer[2] > 0)
        });
        assert!(scanned, "{}", command as char);
    }
}

/// Serials of one code stand in one chain, where nothing but their bytes tells them apart.
#[test]
fn long_chains_of_one_code_are_searched() {
    let jobs = jobs::all();
    let alike = jobs.iter().filter(|job| job.name.starts_with("alike"));
    let found = alike.flat_map(answers).filter(|answer| answer[0] == 0);
    assert!(found.map(|answer| answer[1]).max() >= Some(64));
}

#[test]
fn inputs_stand_at_the_limits() {
    let jobs = jobs::all();
    for length in [0, 16_384, 16_385] {
        assert!(jobs.iter().any(|job| job.input.len() == length), "{length} bytes of input");
    }
    for length in [64, 65] {
        let well_formed = |line: &[u8]| line.len() == length && line.starts_with(b"E 7");
        assert!(jobs.iter().any(|job| lines(job).any(well_formed)), "a line of {length} bytes");
    }
    for digits in [9, 10] {
        let number = |line: &[u8]| line.starts_with(b"F 7 ") && line.split(|&b| b == b' ').any(|f| f.len() == digits);
        assert!(jobs.iter().any(|job| lines(job).any(number)), "a number of {digits} digits");
    }
    for byte in [0, b'\r', b'\t', 0x80, 0xff] {
        assert!(jobs.iter().any(|job| job.input.contains(&byte)), "byte {byte}");
    }
}

/// Some jobs fill the output to its last byte, and some are stopped with each small number of bytes left.
#[test]
fn the_output_runs_full() {
    let jobs = jobs::all();
    assert!(jobs.iter().any(|job| job.output.len() == 16_384));
    for left in 0..8 {
        let stopped = |job: &Job| job.output.ends_with(b"\n10 0 0 0\n") && job.output.len() - 9 + left == 16_384;
        assert!(jobs.iter().any(stopped), "{left} bytes left");
    }
}

/// What a done Show or Withdraw listed, and the same faults as they were filed.
struct Listing {
    filed: Vec<String>,
    listed: Vec<String>,
}

/// The listings of a job, with what was filed read off its lines and its answers.
fn listings(job: &Job) -> Vec<Listing> {
    let output = String::from_utf8(job.output.clone()).unwrap();
    let mut cards: HashMap<Vec<u8>, Vec<String>> = HashMap::new();
    let mut listings = Vec::new();
    for (line, answer) in lines(job).zip(output.lines()).filter(|(_, answer)| answer.starts_with("0 ")) {
        let fields: Vec<&[u8]> = line.split(|&byte| byte == b' ').collect();
        let filed = cards.entry(fields[1].to_vec()).or_default();
        match fields[..] {
            [b"F", _, day, code] => {
                let value = |field| String::from_utf8_lossy(field).parse::<u32>().unwrap();
                filed.push(format!("{}:{}", value(day), value(code)));
            }
            [b"S" | b"W", _] => {
                let listed = answer.split(' ').skip(4).map(String::from).collect();
                listings.push(Listing { filed: filed.clone(), listed });
            }
            _ => (),
        }
        if fields[0] == b"W" {
            filed.clear();
        }
    }
    listings
}

/// The days of what was listed or filed.
fn days(faults: &[String]) -> Vec<u32> {
    faults.iter().map(|fault| fault.split(':').next().unwrap().parse().unwrap()).collect()
}

/// Many listings are in another order than the faults were filed in, and many of these have days more than once. All have the faults
/// that were filed, each as often, by rising day.
#[test]
fn slips_come_late() {
    let all: Vec<Listing> = jobs::all().iter().flat_map(listings).collect();
    for Listing { filed, listed } in &all {
        assert!(days(listed).windows(2).all(|pair| pair[0] <= pair[1]), "{listed:?}");
        let sorted = |faults: &[String]| {
            let mut faults = faults.to_vec();
            faults.sort_unstable();
            faults
        };
        assert_eq!(sorted(filed), sorted(listed));
    }
    let late: Vec<&Listing> = all.iter().filter(|listing| listing.filed != listing.listed).collect();
    let with_equal_days = late.iter().filter(|listing| days(&listing.listed).windows(2).any(|pair| pair[0] == pair[1]));
    assert!(late.len() > 1_000, "{} listings with late slips", late.len());
    assert!(with_equal_days.clone().count() > 500, "{} of them with equal days", with_equal_days.count());
}
