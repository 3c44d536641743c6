//! Random calls, the refused ones included, held to a plain list of cards keyed by the exact bytes of the serial.
mod common;

use common::Reader;
use reference::calls;
use reference::job::{self, Tally};
use reference::lists::{Card, Store};
use reference::random::Random;
use reference::rules;
use std::cmp::Ordering;
use std::collections::BTreeSet;

/// A card of the plain list: its serial and its faults in filing order.
type Plain = (String, Vec<[u32; 2]>);

/// One of the four calls, with a serial.
#[derive(Clone, Debug)]
enum Call {
    Enter(String),
    File(String, u32, u32),
    Show(String),
    Withdraw(String),
}

/// What the plain list tells of an answer: the number, and the faults it lists.
type Told = (u32, Vec<[u32; 2]>);

/// Faults as they are listed: day by day from the lowest, and of each day those that were filed, in filing order.
fn day_by_day(faults: &[[u32; 2]]) -> Vec<[u32; 2]> {
    let days: BTreeSet<u32> = faults.iter().map(|fault| fault[0]).collect();
    days.into_iter().flat_map(|day| faults.iter().copied().filter(move |fault| fault[0] == day)).collect()
}

struct Book {
    cards: Vec<Plain>,
    card_limit: usize,
    fault_limit: usize,
    accepted: usize,
    gone: usize,
}

impl Book {
    fn new(cards: u32, faults: u32) -> Book {
        Book { cards: vec![], card_limit: cards as usize, fault_limit: faults as usize, accepted: 0, gone: 0 }
    }

    fn find(&mut self, serial: &str) -> Option<&mut Plain> {
        self.cards.iter_mut().find(|card| card.0 == serial)
    }

    fn sorted(&self) -> Vec<Plain> {
        let mut all = self.cards.clone();
        all.sort();
        all
    }

    /// The faults that a done call answers: a filing the card's new count, a listing its length.
    fn count(&mut self, call: &Call, listed: &[[u32; 2]]) -> usize {
        match call {
            Call::File(serial, ..) => self.find(serial).map_or(0, |card| card.1.len()),
            _ => listed.len(),
        }
    }

    fn enter(&mut self, serial: &str) -> Told {
        if self.find(serial).is_some() {
            return (6, vec![]);
        }
        if self.cards.len() == self.card_limit {
            return (8, vec![]);
        }
        self.cards.push((serial.to_string(), vec![]));
        (0, vec![])
    }

    fn file(&mut self, serial: &str, day: u32, code: u32) -> Told {
        if day == 0 || day > 65_535 || code == 0 || code > 9_999 {
            return (5, vec![]);
        }
        // Demand 3: refused for room exactly when the faults accepted, less those gone, are at the limit.
        let full = self.accepted - self.gone == self.fault_limit;
        match self.find(serial) {
            None => (7, vec![]),
            Some(_) if full => (9, vec![]),
            Some(card) => {
                card.1.push([day, code]);
                self.accepted += 1;
                (0, vec![])
            }
        }
    }

    fn show(&mut self, serial: &str) -> Told {
        self.find(serial).map_or((7, vec![]), |card| (0, day_by_day(&card.1)))
    }

    fn withdraw(&mut self, serial: &str) -> Told {
        let told = self.show(serial);
        self.cards.retain(|card| card.0 != serial);
        self.gone += told.1.len();
        told
    }

    fn tell(&mut self, call: &Call) -> Told {
        match call {
            Call::Enter(serial) => self.enter(serial),
            Call::File(serial, day, code) => self.file(serial, *day, *code),
            Call::Show(serial) => self.show(serial),
            Call::Withdraw(serial) => self.withdraw(serial),
        }
    }
}

fn answer(reader: &mut Reader, call: &Call) -> [u32; 4] {
    match call {
        Call::Enter(serial) => reader.enter(serial),
        Call::File(serial, day, code) => reader.file(serial, *day, *code),
        Call::Show(serial) => reader.show(serial),
        Call::Withdraw(serial) => reader.withdraw(serial),
    }
}

fn job_line(call: &Call) -> String {
    match call {
        Call::Enter(serial) => format!("E {serial}\n"),
        Call::File(serial, day, code) => format!("F {serial} {day} {code}\n"),
        Call::Show(serial) => format!("S {serial}\n"),
        Call::Withdraw(serial) => format!("W {serial}\n"),
    }
}

/// A day of any number, or one of a week, so that faults of one day meet on a card and others come late.
fn random_day(random: &mut Random) -> u32 {
    if random.below(2) == 0 {
        random.word() % 70_000
    } else {
        1 + random.word() % 7
    }
}

/// The serial of a number. Many of them differ only in leading zeros, and below 300 no two are the same.
fn numbered(number: usize) -> String {
    format!("{:0width$}", number / 3, width = 1 + number % 3 * 2)
}

/// A call on one of the first `serials` serials. `leaning` turns it to entries or to withdrawals.
fn random_call(random: &mut Random, serials: usize, leaning: usize) -> Call {
    let serial = numbered(random.below(serials));
    match random.below(10) {
        0..=2 => Call::File(serial, random_day(random), random.word() % 10_500),
        3 => Call::Show(serial),
        kind if kind < 4 + leaning => Call::Enter(serial),
        _ => Call::Withdraw(serial),
    }
}

/// The calls in one wave of entries or of withdrawals: so many that the table grows and contracts.
const WAVE: usize = 1_000;

/// So many calls, by turns a wave of entries and one of withdrawals.
fn random_calls(random: &mut Random, serials: usize, count: usize, wave: usize) -> Vec<Call> {
    (0..count).map(|k| random_call(random, serials, if k / wave % 2 == 0 { 5 } else { 0 })).collect()
}

fn serial_of(call: &Call) -> &str {
    let (Call::Enter(serial) | Call::File(serial, ..) | Call::Show(serial) | Call::Withdraw(serial)) = call;
    serial
}

/// The comparisons that a search in this store must tell: the card's place in its chain, or the length of the chain.
fn comparisons(store: &Store, serial: &str) -> usize {
    let home = rules::address(rules::code(serial.as_bytes()), store.state.maxp, store.state.p);
    let chain = &store.buckets[home as usize];
    let place = chain.iter().position(|card| card.serial.bytes() == serial.as_bytes());
    place.map_or(chain.len(), |before| before + 1)
}

/// The cards that a reorganisation between the two must have scanned. A split shares out its bucket, the new card included; a
/// contraction moves the cards of the last bucket, but for the one that was withdrawn.
fn scanned(before: &Store, after: &Store, serial: &str) -> usize {
    let last = |store: &Store| store.buckets.last().unwrap().clone();
    match after.buckets.len().cmp(&before.buckets.len()) {
        Ordering::Equal => 0,
        Ordering::Greater => after.buckets[before.state.p as usize].len() + last(after).len(),
        Ordering::Less => last(before).iter().filter(|card| card.serial.bytes() != serial.as_bytes()).count(),
    }
}

/// Every held card with its history, sorted by serial.
fn histories(store: &Store) -> Vec<Plain> {
    let plain = |card: &Card| {
        let faults = card.faults.iter().map(|fault| [fault.entry.day, fault.entry.code]).collect();
        (String::from_utf8(card.serial.bytes().to_vec()).unwrap(), faults)
    };
    let mut all: Vec<Plain> = store.cards().map(plain).collect();
    all.sort();
    all
}

/// The buckets that there must be after a call with this number: an entry that was done may add one, a withdrawal may take one.
fn buckets_after(before: &Store, call: &Call, number: u32, (upper, lower): (usize, usize)) -> usize {
    let (n, buckets) = (before.cards_held(), before.buckets.len());
    match call {
        Call::Enter(_) if number == 0 && n + 1 > upper * buckets && buckets != 256 => buckets + 1,
        Call::Withdraw(_) if number == 0 && n - 1 < lower * buckets && buckets != 16 => buckets - 1,
        _ => buckets,
    }
}

/// The words of the header that no call changes: format, limits, offsets and what stands behind them.
fn lasting(words: &[u32]) -> Vec<u32> {
    [&words[0..3], &words[9..16]].concat()
}

/// What random calls have met: splits, contractions, calls on 256 buckets with more cards than the upper bound allows, and listings in
/// another order than the faults were filed in.
#[derive(Default)]
struct Met {
    splits: usize,
    contractions: usize,
    over: usize,
    reordered: usize,
}

/// Runs random calls on a fresh store with the bounds 4 and 2, and holds each to the book and to the chains.
fn hold_to_the_book(cards: u32, faults: u32, serials: usize, count: usize, seed: u64) -> Met {
    let calls = random_calls(&mut Random::new(seed), serials, count, WAVE);
    hold_calls_to_the_book(Reader::open(cards, faults), (4, 2), calls)
}

/// The same with these calls, on a fresh store with these bounds.
fn hold_calls_to_the_book(mut reader: Reader, bounds: (usize, usize), calls: Vec<Call>) -> Met {
    let mut book = Book::new(reader.words[1], reader.words[2]);
    let mut met = Met::default();
    for call in calls {
        let (words, before) = (reader.words.clone(), reader.lists());
        let serial = serial_of(&call);
        let filed = book.find(serial).map_or(vec![], |card| card.1.clone());
        let answer = answer(&mut reader, &call);
        let (number, listed) = book.tell(&call);
        let after = reader.lists();

        let compared = if number == 5 { 0 } else { comparisons(&before, serial) };
        let counted = if number == 0 { book.count(&call, &listed) } else { 0 };
        let expected = [number as usize, compared, scanned(&before, &after, serial), counted];
        assert_eq!(answer.map(|number| number as usize), expected, "{call:?}");
        assert_eq!(reader.room[..2 * listed.len()], listed.concat(), "{call:?}");
        assert!(number == 0 || reader.words == words, "{call:?} is refused and changes the store");
        assert_eq!(histories(&after), book.sorted(), "{call:?}");
        assert_eq!(book.accepted - book.gone, after.faults_held(), "{call:?}");
        assert_eq!(after.buckets.len(), buckets_after(&before, &call, number, bounds), "{call:?}");
        assert_eq!(lasting(&reader.words), lasting(&words), "{call:?}");

        met.splits += usize::from(after.buckets.len() > before.buckets.len());
        met.contractions += usize::from(after.buckets.len() < before.buckets.len());
        met.over += usize::from(after.cards_held() > bounds.0 * after.buckets.len());
        met.reordered += usize::from(!listed.is_empty() && listed != filed);
    }
    met
}

#[test]
fn small_stores() {
    let runs = (1..=20).map(|seed| hold_to_the_book(1 + seed as u32 % 5, 1 + seed as u32 % 7, 8, 400, seed));
    let reordered: usize = runs.map(|met| met.reordered).sum();
    assert!(reordered > 50, "{reordered} listings in another order than filed");
}

/// Few cards with many faults each.
#[test]
fn long_histories() {
    for seed in 201..=205 {
        let met = hold_to_the_book(3, 300, 3, 3 * WAVE, seed);
        assert!(met.reordered > 100, "{} listings in another order than filed", met.reordered);
    }
}

#[test]
fn stores_that_grow_and_contract() {
    for (seed, cards) in [(101, 90), (102, 150), (103, 300)] {
        let Met { splits, contractions, .. } = hold_to_the_book(cards, 200, 400, 6 * WAVE, seed);
        assert!(splits > 10 && contractions > 10, "{splits} splits, {contractions} contractions");
    }
}

/// Entries one by one up to 18 buckets under this upper bound, calls at random, and withdrawals until no card is left.
fn up_and_down(upper: usize, seed: u64) -> Vec<Call> {
    const SHORT_WAVE: usize = 150;
    let serials = 30 * upper;
    let entered = (0..17 * upper + 3).map(numbered).map(Call::Enter);
    let mixed = random_calls(&mut Random::new(seed), serials, 2 * SHORT_WAVE, SHORT_WAVE);
    let withdrawn = (0..serials).map(numbered).map(Call::Withdraw);
    entered.chain(mixed).chain(withdrawn).collect()
}

/// Every pair of bounds, and format 1: each grows by two buckets at least, and ends with its 16.
#[test]
fn stores_of_any_bounds() {
    let pairs = (2..=10).flat_map(|upper| (1..=upper / 2).map(move |lower| (upper, lower)));
    let of_pair = |(upper, lower)| (Reader::open_with(20 * upper, 60, upper, lower), (upper as usize, lower as usize));
    let stores: Vec<(Reader, (usize, usize))> =
        pairs.map(of_pair).chain([(Reader::format_1(80, 60), (4, 2))]).collect();
    assert_eq!(stores.len(), 26);
    for (seed, (reader, bounds)) in (301..).zip(stores) {
        let format = reader.words[0];
        let Met { splits, contractions, .. } = hold_calls_to_the_book(reader, bounds, up_and_down(bounds.0, seed));
        let met = format!("{splits} splits, {contractions} contractions with {bounds:?} in format {format}");
        assert!(splits >= 2 && contractions == splits, "{met}");
    }
}

/// 256 buckets with more cards than the upper bound allows: they are filled, called at random, and emptied.
#[test]
fn a_store_over_its_bound() {
    let mut random = Random::new(401);
    let serials: Vec<String> = (0..540).map(|n| format!("N{n}")).collect();
    let entered = serials.iter().cloned().map(Call::Enter);
    let mixed: Vec<Call> = random_calls(&mut random, 60, 200, WAVE);
    let withdrawn = serials.iter().rev().cloned().map(Call::Withdraw);
    let calls = entered.chain(mixed).chain(withdrawn).collect();
    let met = hold_calls_to_the_book(Reader::open_with(600, 10, 2, 1), (2, 1), calls);
    assert!(met.over > 100, "{} calls over the upper bound", met.over);
    assert!(met.splits >= 240 && met.contractions >= 200, "{} splits, {} contractions", met.splits, met.contractions);
}

/// The answer line of a call that gave these numbers: what it listed stands in the room.
fn answer_line(call: &Call, numbers: [u32; 4], room: &[u32]) -> String {
    let listed = match (call, numbers[0]) {
        (Call::Show(_) | Call::Withdraw(_), 0) => numbers[3] as usize,
        _ => 0,
    };
    let pairs = room.chunks(2).take(listed).map(|pair| format!(" {}:{}", pair[0], pair[1]));
    numbers.map(|number| number.to_string()).join(" ") + &pairs.collect::<String>()
}

/// A job leaves the words, and gives the answers, of its calls one by one. Each store gets a job of entries and one of withdrawals.
#[test]
fn a_job_is_its_calls() {
    let pairs = [(4, 2), (2, 1), (10, 5)].map(|(upper, lower)| Reader::open_with(256, 512, upper, lower));
    pairs.into_iter().chain([Reader::format_1(256, 512)]).for_each(jobs_are_their_calls);
}

/// One copy of the store gets the calls one by one, the other as jobs.
fn jobs_are_their_calls(mut reader: Reader) {
    let mut single = reader.clone();
    let calls = random_calls(&mut Random::new(7), 300, 2 * WAVE, WAVE);
    let opened = format!("opened as {:?}", &reader.words[..16]);
    let mut tally = Tally::default();
    for calls in calls.chunks(WAVE) {
        let text: String = calls.iter().map(job_line).collect();
        let answers = calls.iter().map(|call| {
            let numbers = answer(&mut single, call);
            answer_line(call, numbers, &single.room)
        });
        let answers: Vec<String> = answers.collect();

        let mut out = vec![0; 100_000];
        let done = job::run(&mut reader.words, &mut [0; calls::SCRATCH], text.as_bytes(), &mut out, &mut tally);
        assert_eq!((done.number, done.lines as usize), (0, calls.len()), "{opened}");
        assert!(reader.words == single.words, "other words, {opened}");
        let output = String::from_utf8(out[..done.bytes as usize].to_vec()).unwrap();
        assert_eq!(output.lines().collect::<Vec<_>>(), answers, "{opened}");
    }
    let Tally { splits, contractions, .. } = tally;
    assert!(splits > 0 && contractions > 0, "{splits} splits, {contractions} contractions, {opened}");
}
