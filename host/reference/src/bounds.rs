//! What `reference bounds` prints: one workload for each of six pairs of load bounds, counted, as the rows of the table that
//! docs/BOUNDS.md and host/bench/README.md have. The benchmark's C program counts the same.
use crate::lists::{Limits, Store};
use crate::operations::{self, Answer, Operation};
use crate::rules::Bounds;
use crate::serial::Serial;

const PAIRS: [(u32, u32); 6] = [(2, 1), (4, 2), (6, 3), (8, 4), (10, 5), (10, 1)];

const CARDS: usize = 1_024;
const FEW: usize = 100;

/// The numbers of cards at which the chains are looked at, on the way up.
const STOPS: [usize; 3] = [256, 512, CARDS];

pub fn rows() -> Vec<String> {
    PAIRS.map(|(upper, lower)| row(Bounds { upper, lower })).to_vec()
}

/// A store, and what its calls have counted: splits, contractions, and the cards that each call scanned.
struct Counted {
    store: Store,
    splits: usize,
    contractions: usize,
    scanned: Vec<u32>,
}

impl Counted {
    fn new(bounds: Bounds) -> Counted {
        let store = Store::fresh(Limits { cards: CARDS as u32, faults: 1 }, bounds);
        Counted { store, splits: 0, contractions: 0, scanned: Vec::new() }
    }

    /// One call for the serial of this number, which must be answered so. Gives the comparisons.
    fn call(&mut self, operation: Operation, number: usize, expected: u32) -> u32 {
        let before = self.store.buckets.len();
        let serial = Serial::new(format!("TG-{number:06}").as_bytes());
        let Answer { number, comparisons, scanned, .. } =
            operations::apply(&mut self.store, operation, serial, 0).answer;
        assert_eq!(number, expected, "the number of an answer");
        let after = self.store.buckets.len();
        self.splits += usize::from(after > before);
        self.contractions += usize::from(after < before);
        self.scanned.push(scanned);
        comparisons
    }

    /// The average chain and the longest, with all cards that are held now.
    fn chains(&self) -> String {
        let buckets = &self.store.buckets;
        let longest = buckets.iter().map(Vec::len).max().unwrap_or(0);
        format!("{:.2}, {longest}", self.store.cards_held() as f64 / buckets.len() as f64)
    }
}

/// All cards are entered, and shown with as many serials behind the last; the first ones are withdrawn until few are left, and entered
/// again.
fn row(bounds: Bounds) -> String {
    let mut counted = Counted::new(bounds);
    let mut chains = Vec::new();
    for number in 1..=CARDS {
        counted.call(Operation::Enter, number, 0);
        if STOPS.contains(&number) {
            chains.push(counted.chains());
        }
    }
    let top = counted.store.buckets.len();
    let held: u32 = (1..=CARDS).map(|number| counted.call(Operation::Show, number, 0)).sum();
    let missing: u32 = (1..=CARDS).map(|number| counted.call(Operation::Show, CARDS + number, 7)).sum();
    for number in 1..=CARDS - FEW {
        counted.call(Operation::Withdraw, number, 0);
    }
    let few = counted.store.buckets.len();
    for number in 1..=CARDS - FEW {
        counted.call(Operation::Enter, number, 0);
    }

    let Counted { splits, contractions, scanned, .. } = counted;
    let in_all = scanned.iter().sum::<u32>() as usize;
    let most = scanned.iter().max().map_or(0, |&most| most as usize);
    let each = |comparisons: u32| format!("{:.2}", f64::from(comparisons) / CARDS as f64);
    let cells = [
        vec![format!("{}, {}", bounds.upper, bounds.lower), grouped(top), grouped(few)],
        chains,
        vec![each(held), each(missing)],
        [splits, contractions, in_all, most].map(grouped).to_vec(),
    ];
    format!("| {} |", cells.concat().join(" | "))
}

/// With a comma before the last three digits of a number over 999.
fn grouped(number: usize) -> String {
    if number < 1_000 {
        number.to_string()
    } else {
        format!("{},{:03}", number / 1_000, number % 1_000)
    }
}
