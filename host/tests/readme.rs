//! The store in a file that README.md makes under "Run it": its jobs are all done, and its report is what stands there.
use card_store::{report, Limits, Store, Tally};
use reference::desk;
use std::collections::BTreeMap;
use std::fs;
use std::path::Path;

fn read(path: &str) -> String {
    let path = Path::new(env!("CARGO_MANIFEST_DIR")).join("..").join(path);
    fs::read_to_string(&path).unwrap_or_else(|error| panic!("{}: {error}", path.display()))
}

/// The lines of README.md that are set as typed, in the order of the page.
fn typed(readme: &str) -> Vec<&str> {
    let section = readme.split("\n## ").find(|part| part.starts_with("Run it")).expect("the section");
    section.lines().filter_map(|line| line.strip_prefix("    ")).collect()
}

#[test]
fn the_report_is_what_the_page_shows() {
    let readme = read("README.md");
    let mut stores: BTreeMap<&str, Store> = BTreeMap::new();
    let mut lines = typed(&readme).into_iter();
    let mut reported = None;
    for line in lines.by_ref() {
        let words: Vec<&str> = line.split(' ').collect();
        match words[..] {
            ["./desk", "new", file, cards, faults] => {
                let [cards, faults] = [cards, faults].map(|number| number.parse().expect("a limit"));
                stores.insert(file, Store::new(Limits { cards, faults }).expect("good limits"));
            }
            ["./desk", "job", file, "<", job] => {
                let store = stores.get_mut(file).expect("a store that was made");
                let answers = store.job(read(job), &mut Tally::default()).expect("a sound store");
                assert!(answers.lines().all(|answer| answer.starts_with("0 ")), "{job}: {answers}");
            }
            ["./desk", "report", ..] => {
                let files: Vec<Vec<u8>> = words[2..].iter().map(|file| stores[file].to_bytes()).collect();
                let asked: Vec<&Store> = words[2..].iter().map(|file| &stores[file]).collect();
                let text = report(&asked).expect("sound stores");
                assert_eq!(desk::reported(&files), Ok(text.clone()));
                reported = Some(text);
                break;
            }
            ["./desk", "check", file] => assert_eq!(stores[file].clone().check(), Ok(())),
            _ => assert!(!line.starts_with("./desk"), "what does {line} do?"),
        }
    }
    let reported = reported.expect("a report");
    let shown: String = lines.map(|line| format!("{line}\n")).collect();
    assert_eq!(shown, reported);
    assert!(reported.lines().count() > 3, "a report with faults in it");
}
