//! Stores that are opened, filled and emptied by random calls.
use crate::desk::{Act, Desk, Sent};
use crate::made;
use reference::layout;
use reference::lists::{Entry, Limits, Store};
use reference::random::Random;
use reference::rules::Bounds;
use reference::serial::Serial;

/// A store under test, and how many labels its cards may have.
pub struct Stock {
    pub words: Vec<u32>,
    pub faults: u32,
    pub labels: usize,
}

/// How often each call is made, out of all of them.
pub struct Mix {
    pub enter: usize,
    pub file: usize,
    pub show: usize,
    pub withdraw: usize,
    pub check: usize,
}

pub const EVEN: Mix = Mix { enter: 5, file: 6, show: 4, withdraw: 3, check: 1 };
pub const FILLING: Mix = Mix { enter: 16, file: 4, show: 2, withdraw: 1, check: 1 };
pub const EMPTYING: Mix = Mix { enter: 1, file: 2, show: 2, withdraw: 16, check: 1 };

impl Stock {
    /// A store that is opened now; rarely it is made one of format 1.
    pub fn open(desk: &mut Desk, random: &mut Random, cards: u32, faults: u32, bounds: Bounds) -> Stock {
        let mut words = made::unopened(cards, faults);
        assert_eq!(desk.open(&mut words, [cards, faults, bounds.upper, bounds.lower]), 0);
        if bounds == Bounds::USUAL || made::rarely(random, 6) {
            (words[0], words[14]) = (1, 0);
        }
        Stock { words, faults, labels: cards as usize + 3 }
    }

    /// So many calls.
    pub fn run(&mut self, desk: &mut Desk, random: &mut Random, mix: &Mix, count: usize) {
        for _ in 0..count {
            let scratch = made::scratch(random);
            let sent = made::serial(random, self.labels);
            let Mix { enter, file, show, withdraw, check } = *mix;
            let drawn = random.below(enter + file + show + withdraw + check);
            if drawn < enter {
                desk.call(&mut self.words, &scratch, sent, &Act::Enter);
            } else if drawn < enter + file {
                let (day, code) = made::fault(random);
                desk.call(&mut self.words, &scratch, sent, &Act::File { day, code });
            } else if drawn < enter + file + show {
                self.show(desk, random, &scratch, sent);
            } else if drawn < enter + file + show + withdraw {
                self.withdraw(desk, random, &scratch, sent);
            } else {
                desk.check(&self.words, &scratch);
            }
        }
    }

    /// Room of any length up to some words more than any card wants.
    fn room(&self, random: &mut Random) -> Vec<u32> {
        made::room(random.below(2 * self.faults.min(20) as usize + 5))
    }

    /// Shown with some room; where that is too short, with one word too few, with just enough, and with more.
    fn show(&mut self, desk: &mut Desk, random: &mut Random, scratch: &[u8], sent: Sent) {
        let room = self.room(random);
        let [number, .., faults] = desk.call(&mut self.words, scratch, sent, &Act::Show { room: &room });
        if number != 10 {
            return;
        }
        let wanted = 2 * faults as usize;
        for (length, number) in [(wanted - 1, 10), (wanted, 0), (wanted + 3, 0)] {
            let room = made::room(length);
            let answer = desk.call(&mut self.words, scratch, sent, &Act::Show { room: &room });
            assert_eq!((answer[0], answer[3]), (number, faults), "{length} words for {faults} faults");
        }
    }

    /// Withdrawn; where room lacks, first with one word too few and then, every other time, with just enough.
    fn withdraw(&mut self, desk: &mut Desk, random: &mut Random, scratch: &[u8], sent: Sent) {
        let room = self.room(random);
        let [number, .., faults] = desk.call(&mut self.words, scratch, sent, &Act::Withdraw { room: &room });
        if number != 10 {
            return;
        }
        let wanted = 2 * faults as usize;
        let short = made::room(wanted - 1);
        assert_eq!(desk.call(&mut self.words, scratch, sent, &Act::Withdraw { room: &short })[0], 10);
        if made::rarely(random, 2) {
            let exact = made::room(wanted);
            assert_eq!(desk.call(&mut self.words, scratch, sent, &Act::Withdraw { room: &exact })[0], 0);
        }
    }
}

/// Small stores, which are full again and again.
pub fn small(desk: &mut Desk, random: &mut Random, stores: usize, count: usize) {
    for _ in 0..stores {
        let (cards, faults) = (made::between(random, 1, 12), made::between(random, 1, 12));
        let bounds = made::bounds(random);
        let mut stock = Stock::open(desk, random, cards, faults, bounds);
        stock.run(desk, random, &EVEN, count);
    }
}

/// Stores that grow and contract as they are filled and emptied, some of them to their limits.
pub fn grown(desk: &mut Desk, random: &mut Random, stores: usize) {
    for _ in 0..stores {
        let (cards, faults) = (made::between(random, 36, 150), made::between(random, 1, 60));
        let upper = made::between(random, 2, 4);
        let lower = made::between(random, 1, upper / 2);
        let mut stock = Stock::open(desk, random, cards, faults, Bounds { upper, lower });
        for mix in [FILLING, EMPTYING, EVEN] {
            stock.run(desk, random, &mix, 3 * cards as usize);
        }
    }
}

/// All cards of a store in turn, each with a fault, and then all of them withdrawn in another order: each split and each
/// contraction on the way up and down.
pub fn tides(desk: &mut Desk, random: &mut Random, cards: u32) {
    for (upper, lower) in [(2, 1), (3, 1), (4, 2), (7, 3)] {
        let mut stock = Stock::open(desk, random, cards, cards, Bounds { upper, lower });
        let (scratch, room) = (made::bytes(384), made::room(2));
        for k in 0..cards {
            let sent = made::sent(&made::label(k as usize));
            assert_eq!(desk.call(&mut stock.words, &scratch, sent, &Act::Enter)[0], 0);
            assert_eq!(desk.call(&mut stock.words, &scratch, sent, &Act::File { day: 1 + k, code: 1 + k })[0], 0);
        }
        for k in 0..cards {
            // 7 has no factor in common with the number of cards
            let sent = made::sent(&made::label((7 * k % cards) as usize));
            assert_eq!(desk.call(&mut stock.words, &scratch, sent, &Act::Withdraw { room: &room })[0], 0);
        }
        assert_eq!(stock.words[3..7], [16, 0, 0, 0], "an empty store of 16 buckets");
    }
}

/// The largest stores. Most of their cards are laid, not entered; then there are calls at their limits.
pub fn largest(desk: &mut Desk, random: &mut Random, count: usize) {
    for (upper, lower) in [(2, 1), (4, 2), (10, 5)] {
        for held in [1_020, 400] {
            let words = laid(Bounds { upper, lower }, held, 2_040);
            let mut stock = Stock { words, faults: 2_048, labels: held + 8 };
            for mix in [FILLING, EVEN, EMPTYING] {
                stock.run(desk, random, &mix, count);
            }
        }
    }
}

/// The words of a largest store that holds so many numbered cards and faults. Half of the faults are the first card's.
pub fn laid(bounds: Bounds, cards: usize, faults: usize) -> Vec<u32> {
    let mut store = Store::fresh(Limits { cards: 1_024, faults: 2_048 }, bounds);
    for k in 0..cards {
        let serial = Serial::new(&made::label(k)).expect("a serial");
        let search = store.search(&serial);
        store.place(search.bucket, serial);
        store.grow();
    }
    for k in 0..faults {
        let card = if k % 2 == 0 { 0 } else { k % cards };
        let search = store.search(&Serial::new(&made::label(card)).expect("a serial"));
        let entry = Entry { day: 1 + (k as u32 * 7_919) % 65_535, code: 1 + (k as u32 * 31) % 9_999 };
        store.file(search.bucket, search.place.expect("a held card"), entry);
    }
    layout::encode(&store)
}

/// Open with limits and bounds about every edge, on as many words as they ask for, or a few more or fewer.
pub fn opens(desk: &mut Desk, random: &mut Random, count: usize) {
    for _ in 0..count {
        let cards = edge(random, &[0, 1, 2, 7, 40, 1_024, 1_025, u32::MAX], 60);
        let faults = edge(random, &[0, 1, 2, 9, 2_048, 2_049, u32::MAX], 60);
        let upper = edge(random, &[0, 1, 2, 4, 10, 11, 1 << 31, u32::MAX], 12);
        let lower = edge(random, &[0, 1, 2, 5, 6, 1 << 31, u32::MAX], 6);
        let asked = 288 + 9 * u64::from(cards) + 3 * u64::from(faults);
        let exact = usize::try_from(asked.min(20_000)).expect("a length");
        let length = made::one_of(random, &[exact, exact, exact, exact - 1, exact + 1, 0, 300]);
        let mut words = made::room(length);
        desk.open(&mut words, [cards, faults, upper, lower]);
    }
}

/// One of these, or mostly a number from 1 on, up to `usual`.
fn edge(random: &mut Random, edges: &[u32], usual: u32) -> u32 {
    if made::rarely(random, 4) {
        made::one_of(random, edges)
    } else {
        made::between(random, 1, usual)
    }
}
