//! The texts of the benchmark, the same in each run: frames on standard output, as README.md tells.
//!
//! `texts whole WORKLOAD CARDS TURNS` writes a workload for a store of so many cards; `texts base ..` the same with nothing to measure
//! in its turns; `texts twice ..` the same as `whole` with an empty job before each job measured, and a test before each call, so that
//! soundness is tested twice; `texts written ..` the same as `whole` with the answers written. `texts odd`, `texts brim` and `texts
//! single` are not for timing: they are odd lines, the limits of the store, and single calls.
//!
//! `texts tested WORKLOAD GROUP TURNS` writes stores, and that a report is made over each group of so many of them; `texts again ..` the
//! same with a second report of each group, without tests of soundness; `texts base ..` the same as `tested` with no turns; `texts written
//! ..` the same as `again` with the last text written.
mod frame;
mod histories;
mod labels;
mod limits;
mod odd;
mod stores;
mod workload;

use frame::Frame;
use std::io::{self, Write};
use std::{env, process};
use stores::Task;
use workload::Workload;

fn main() {
    let arguments: Vec<String> = env::args().skip(1).collect();
    let words: Vec<&str> = arguments.iter().map(String::as_str).collect();
    let text = match words[..] {
        ["odd"] => Some(frame::bytes(&odd::frames(), true)),
        ["brim"] => Some(frame::bytes(&limits::brim(), true)),
        ["single"] => Some(frame::bytes(&limits::single(), true)),
        [form, name, group, turns] if stores::NAMES.contains(&name) => reported(form, name, group, turns),
        [form, name, cards, turns] => timed(form, name, cards, turns),
        _ => None,
    };
    match text {
        Some(text) => io::stdout().write_all(&text).expect("standard output takes the text"),
        None => usage(),
    }
}

/// One turn comes before those that are counted, so that code and data are warm when it comes to them.
fn timed(form: &str, name: &str, cards: &str, turns: &str) -> Option<Vec<u8>> {
    let Workload { ground, shared, measured } = workload::named(name, cards.parse().ok()?)?;
    let start = [ground, shared.clone(), measured.clone(), vec![Frame::Repeat(turns.parse().ok()?)], shared].concat();
    match form {
        "base" => Some(frame::bytes(&start, false)),
        "whole" => Some(frame::bytes(&[start, measured].concat(), false)),
        "twice" => Some(frame::bytes(&[start, frame::tested_twice(&measured)].concat(), false)),
        "written" => Some(frame::bytes(&[start, measured].concat(), true)),
        _ => None,
    }
}

fn reported(form: &str, name: &str, group: &str, turns: &str) -> Option<Vec<u8>> {
    let turns = turns.parse().ok()?;
    let task = match form {
        "base" => Task { twice: false, written: false, turns: 0 },
        "tested" => Task { twice: false, written: false, turns },
        "again" => Task { twice: true, written: false, turns },
        "written" => Task { twice: true, written: true, turns },
        _ => return None,
    };
    stores::input(name, group.parse().ok()?, &task)
}

fn usage() {
    let orders = workload::ORDERS.map(|(name, _)| name);
    let kinds = labels::KINDS.map(|(name, _)| name);
    eprintln!("usage: texts base|whole|twice|written {} CARDS TURNS", workload::NAMES.join("|"));
    eprintln!("       texts base|whole|twice|written {}[-calls] CARDS TURNS", orders.join("|"));
    eprintln!("       texts base|whole|twice|written {}[-long][-check] CARDS TURNS", kinds.join("|"));
    eprintln!("       texts base|tested|again|written {} GROUP TURNS", stores::NAMES.join("|"));
    eprintln!("       texts odd|brim|single");
    eprintln!("CARDS is one of 1, 64, 128, 256, 512 and 1024");
    process::exit(2);
}
