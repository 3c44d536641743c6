//! The refusals have the names and the numbers that the proved code has, and docs/RUST.md has each of them.
use card_store::Refusal;
use std::fs;
use std::path::Path;

fn read(path: &str) -> String {
    let path = Path::new(env!("CARGO_MANIFEST_DIR")).join("..").join(path);
    fs::read_to_string(&path).unwrap_or_else(|error| panic!("{}: {error}", path.display()))
}

/// Number and name of each, as Rust writes names of cases.
fn ours() -> Vec<(u32, String)> {
    Refusal::ALL.iter().map(|refusal| (refusal.number(), format!("{refusal:?}"))).collect()
}

#[test]
fn refusals_are_those_of_the_proved_code() {
    let text = read("crates/store/src/numbers.rt");
    let cases = text.lines().filter_map(|line| line.strip_prefix("    ")?.strip_suffix(',')?.split_once(" = "));
    let theirs: Vec<(u32, String)> =
        cases.map(|(name, number)| (number.parse().expect("a number"), name.to_string())).collect();
    assert_eq!(theirs, ours());
}

#[test]
fn refusals_are_in_the_document() {
    let text = read("docs/RUST.md");
    let rows = text.lines().filter_map(|line| line.strip_prefix("| ")?.split_once(" | `"));
    let theirs: Vec<(u32, String)> =
        rows.filter_map(|(number, rest)| Some((number.parse().ok()?, rest.split_once('`')?.0.to_string()))).collect();
    assert_eq!(theirs, ours());
}

#[test]
fn numbers_have_their_refusals() {
    for number in 0..100 {
        let refusal = Refusal::of(number);
        assert_eq!(refusal.map(Refusal::number), (1..=15).contains(&number).then_some(number), "{number}");
    }
    assert_eq!(Refusal::of(u32::MAX), None);
}

#[test]
fn refusals_are_told_apart_in_a_sentence() {
    let mut sentences: Vec<String> = Refusal::ALL.iter().map(Refusal::to_string).collect();
    assert!(sentences.iter().all(|sentence| sentence.len() > 20), "{sentences:?}");
    sentences.sort_unstable();
    sentences.dedup();
    assert_eq!(sentences.len(), Refusal::ALL.len());
    let error: Box<dyn std::error::Error> = Box::from(Refusal::NotHeld);
    assert_eq!(error.to_string(), "no card with this serial is held");
}
