//! Histories by the order of their days. A store's faults are shared out among its cards.
use frames::FAULTS;
use reference::random::Random;

/// The days of so many faults of a card, as they are filed. All have five digits.
pub type Order = fn(&mut Random, usize) -> Vec<usize>;

const FIRST_DAY: usize = 20_000;

/// By day: up to a week from one fault to the next.
pub fn rising(random: &mut Random, count: usize) -> Vec<usize> {
    let mut day = FIRST_DAY;
    let mut days = Vec::new();
    for _ in 0..count {
        day += random.below(8);
        days.push(day);
    }
    days
}

/// By day, but that one in eight is filed up to three weeks late.
pub fn late(random: &mut Random, count: usize) -> Vec<usize> {
    let days = rising(random, count);
    days.iter().map(|day| if random.below(8) == 0 { day - random.below(22) } else { *day }).collect()
}

/// Each of an earlier day than the one before it.
pub fn falling(random: &mut Random, count: usize) -> Vec<usize> {
    (0..count).rev().map(|weeks| FIRST_DAY + 7 * weeks + random.below(7)).collect()
}

/// The lines that file these histories, one fault of each card after another.
pub fn filings(random: &mut Random, serials: &[String], order: Order) -> Vec<String> {
    let count = FAULTS as usize / serials.len();
    let days: Vec<Vec<usize>> = serials.iter().map(|_| order(random, count)).collect();
    let mut lines = Vec::new();
    for place in 0..count {
        for (serial, days) in serials.iter().zip(&days) {
            lines.push(format!("F {serial} {} {}", days[place], 1 + random.below(9_999)));
        }
    }
    lines
}
