//! The workloads. Each has about as many lines for every number of cards, in jobs of like size, so that a line's cost can be
//! compared: a job tests soundness once, and that costs the same whatever the number of cards. Those that list histories show every
//! card once a turn, 2,048 faults together.
use crate::frame::{jobs, Frame};
use crate::histories::{self, Order};
use crate::labels::{Kind, KINDS};
use reference::random::Random;
use std::collections::BTreeSet;

const SEED: u64 = 7_007_007;

/// The most cards, and the checked calls of a turn.
const MOST: usize = 1_024;
const CALLS: usize = 64;

pub const NAMES: [&str; 7] = ["fill", "show", "file", "churn", "day", "call", "check"];

/// Workloads that list histories, by the order of their days. With `-calls` behind the name it is done by checked calls and not by jobs.
pub const ORDERS: [(&str, Order); 3] =
    [("rising", histories::rising), ("late", histories::late), ("falling", histories::falling)];

/// `ground` is done once. Then come the turns, each of them `shared` and `measured`; the time of turns of `shared` alone is taken off.
/// A turn leaves the same cards behind that it found, or begins with Open.
#[derive(Default)]
pub struct Workload {
    pub ground: Vec<Frame>,
    pub shared: Vec<Frame>,
    pub measured: Vec<Frame>,
}

pub fn named(name: &str, cards: usize) -> Option<Workload> {
    if ![1, 64, 128, 256, 512, MOST].contains(&cards) {
        return None;
    }
    let mut random = Random::new(SEED);
    if let Some(labels) = labels(name) {
        return Some(searched(&mut random, cards, &labels));
    }
    let serials = serials(&mut random, cards);
    if let Some((order, calls)) = order(name) {
        return Some(listed(&mut random, &serials, order, calls));
    }
    let make = match name {
        "fill" => fill,
        "show" => show,
        "file" => file,
        "churn" => churn,
        "day" => day,
        "call" => call,
        "check" => check,
        _ => return None,
    };
    Some(make(&mut random, &serials))
}

/// The order of a workload that lists histories, and whether it does so by calls.
fn order(name: &str) -> Option<(Order, bool)> {
    let (first, calls) = name.strip_suffix("-calls").map_or((name, false), |first| (first, true));
    let (_, order) = ORDERS.iter().find(|(known, _)| *known == first)?;
    Some((*order, calls))
}

/// Serials of a kind, whether their chains are long, and whether the checker alone is measured.
struct Labels {
    kind: &'static Kind,
    long: bool,
    check: bool,
}

fn labels(name: &str) -> Option<Labels> {
    let (name, check) = name.strip_suffix("-check").map_or((name, false), |first| (first, true));
    let (name, long) = name.strip_suffix("-long").map_or((name, false), |first| (first, true));
    let (_, kind) = KINDS.iter().find(|(known, _)| *known == name)?;
    Some(Labels { kind, long, check })
}

/// From none to all cards and back to none.
fn fill(random: &mut Random, serials: &[String]) -> Workload {
    let rounds = (0..MOST / serials.len()).flat_map(|_| [enter_all(serials), withdraw_all(random, serials)].concat());
    Workload { ground: vec![Frame::Open], measured: jobs(&rounds.collect::<Vec<_>>()), ..Workload::default() }
}

/// Every card shown, two faults on each.
fn show(random: &mut Random, serials: &[String]) -> Workload {
    let rounds = (0..2 * MOST / serials.len()).flat_map(|_| show_all(random, serials));
    let measured = jobs(&rounds.collect::<Vec<_>>());
    Workload { ground: full_store(random, serials), measured, ..Workload::default() }
}

/// Faults filed up to the limit, on cards that had none.
fn file(random: &mut Random, serials: &[String]) -> Workload {
    let filings = (0..2 * MOST / serials.len()).flat_map(|_| file_all(random, serials));
    let measured = jobs(&filings.collect::<Vec<_>>());
    Workload { shared: filled_store(serials), measured, ..Workload::default() }
}

/// Entries and withdrawals mixed: down to a quarter of the cards and up again.
fn churn(random: &mut Random, serials: &[String]) -> Workload {
    let rounds = (0..MOST / serials.len()).flat_map(|_| down_and_up(random, serials));
    let measured = jobs(&rounds.collect::<Vec<_>>());
    Workload { ground: filled_store(serials), measured, ..Workload::default() }
}

/// All four on one store, from Open on.
fn day(random: &mut Random, serials: &[String]) -> Workload {
    let shown = show_all(random, serials);
    let churned = down_and_up(random, serials);
    let shown_again = show_all(random, serials);
    let measured = [full_store(random, serials), jobs(&shown), jobs(&churned), jobs(&shown_again)].concat();
    Workload { measured, ..Workload::default() }
}

/// Single checked calls of Show.
fn call(random: &mut Random, serials: &[String]) -> Workload {
    let measured = (0..CALLS).map(|_| Frame::Show(serials[random.below(serials.len())].clone().into_bytes())).collect();
    Workload { ground: full_store(random, serials), measured, ..Workload::default() }
}

/// The checker alone.
fn check(random: &mut Random, serials: &[String]) -> Workload {
    Workload { ground: full_store(random, serials), measured: vec![Frame::Check; CALLS], ..Workload::default() }
}

/// Histories shown, every card once.
fn listed(random: &mut Random, serials: &[String], order: Order, calls: bool) -> Workload {
    let filings = histories::filings(random, serials, order);
    let ground = [filled_store(serials), jobs(&filings)].concat();
    let measured = if calls {
        shuffled(random, serials).into_iter().map(|serial| Frame::Show(serial.into_bytes())).collect()
    } else {
        jobs(&show_all(random, serials))
    };
    Workload { ground, measured, ..Workload::default() }
}

/// A full store of cards without faults: every card shown, and as many that are not held, or the checker alone.
fn searched(random: &mut Random, cards: usize, labels: &Labels) -> Workload {
    let serials = labels.kind.serials(random, 2 * cards, labels.long);
    let (held, missing) = serials.split_at(cards);
    let ground = filled_store(held);
    let measured = if labels.check {
        vec![Frame::Check; CALLS]
    } else {
        let missed = missing.iter().cycle().take(cards).cloned();
        let asked: Vec<String> = held.iter().cloned().chain(missed).collect();
        jobs(&show_all(random, &asked))
    };
    Workload { ground, measured, ..Workload::default() }
}

// ---- stores

fn filled_store(serials: &[String]) -> Vec<Frame> {
    [vec![Frame::Open], jobs(&enter_all(serials))].concat()
}

/// Two faults on every card.
fn full_store(random: &mut Random, serials: &[String]) -> Vec<Frame> {
    let filings = [file_all(random, serials), file_all(random, serials)].concat();
    [filled_store(serials), jobs(&filings)].concat()
}

// ---- lines

fn enter_all(serials: &[String]) -> Vec<String> {
    serials.iter().map(|serial| format!("E {serial}")).collect()
}

fn withdraw_all(random: &mut Random, serials: &[String]) -> Vec<String> {
    shuffled(random, serials).iter().map(|serial| format!("W {serial}")).collect()
}

fn show_all(random: &mut Random, serials: &[String]) -> Vec<String> {
    shuffled(random, serials).iter().map(|serial| format!("S {serial}")).collect()
}

/// One fault on each card.
fn file_all(random: &mut Random, serials: &[String]) -> Vec<String> {
    let cards = shuffled(random, serials);
    cards.iter().map(|serial| format!("F {serial} {} {}", 1 + random.below(65_535), 1 + random.below(9_999))).collect()
}

/// Begins and ends with all cards held. On the way down three of four lines withdraw, on the way up three of four enter.
fn down_and_up(random: &mut Random, serials: &[String]) -> Vec<String> {
    let (many, few) = (serials.len() * 9 / 8, serials.len() * 3 / 8);
    let mut shelf = Shelf { held: serials.to_vec(), missing: Vec::new() };
    [shelf.mixed(random, many, few), shelf.mixed(random, few, many)].concat()
}

/// The cards that are held and those that are not.
struct Shelf {
    held: Vec<String>,
    missing: Vec<String>,
}

impl Shelf {
    /// So many withdrawals and entries, in any order that the cards allow.
    fn mixed(&mut self, random: &mut Random, withdrawals: usize, entries: usize) -> Vec<String> {
        let mut left = (withdrawals, entries);
        let mut lines = Vec::new();
        while left.0 + left.1 > 0 {
            let wanted = random.below(left.0 + left.1) < left.1;
            if (wanted && !self.missing.is_empty()) || self.held.is_empty() {
                lines.push(format!("E {}", carry(random, &mut self.missing, &mut self.held)));
                left.1 -= 1;
            } else {
                lines.push(format!("W {}", carry(random, &mut self.held, &mut self.missing)));
                left.0 -= 1;
            }
        }
        lines
    }
}

/// Carries a serial from one list to the other.
fn carry(random: &mut Random, from: &mut Vec<String>, to: &mut Vec<String>) -> String {
    let serial = from.swap_remove(random.below(from.len()));
    to.push(serial.clone());
    serial
}

// ---- serials

/// Different serials of 6 to 12 bytes, in no order.
fn serials(random: &mut Random, count: usize) -> Vec<String> {
    let mut known = BTreeSet::new();
    let mut serials = Vec::new();
    while serials.len() < count {
        let serial = serial(random);
        if known.insert(serial.clone()) {
            serials.push(serial);
        }
    }
    serials
}

fn serial(random: &mut Random) -> String {
    const ALLOWED: &[u8] = b"0123456789ABCDEFGHIJKLMNOPQRSTUVWXYZ-";
    let length = 6 + random.below(7);
    (0..length).map(|_| char::from(ALLOWED[random.below(ALLOWED.len())])).collect()
}

fn shuffled(random: &mut Random, serials: &[String]) -> Vec<String> {
    let mut list = serials.to_vec();
    for end in (1..list.len()).rev() {
        list.swap(end, random.below(end + 1));
    }
    list
}
