//! The script for `list_runs` has what it is to have, and fits what that program reads.
use reference::{run_cases, runs};

#[test]
fn the_script_is_within_the_programs_buffer() {
    assert!(run_cases::script().len() <= 65_536);
}

#[test]
fn every_number_of_a_report_occurs() {
    let told = runs::told(&run_cases::script());
    let numbers: Vec<&str> = told.lines().filter_map(|line| line.strip_prefix("R: ")?.split(' ').next()).collect();
    assert!(numbers.len() >= 300);
    for number in ["0", "3", "10", "11", "14"] {
        assert!(numbers.iter().filter(|&&given| given == number).count() >= 10, "number {number}");
    }
    assert!(numbers.iter().all(|number| ["0", "3", "10", "11", "14"].contains(number)));
}
