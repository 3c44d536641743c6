//! Whether any words at all are a sound store, clause by clause as documents 01 and 02 have them, and the lists that sound words stand for.
//!
//! Chains are not followed to find out whether they are chains. First all the words that point to a cell are gathered: every cell
//! must be pointed to exactly once. From then on a walk from a head cannot come back to a cell it has passed, and the cells that no
//! walk reaches can only stand in rings.
use crate::layout::{self, Offsets, CARD_WORDS, FAULT_WORDS};
use crate::lists::{Card, Entry, Fault, Format, Limits, Store};
use crate::rules::{self, State};
use crate::serial::Serial;

pub fn sound(words: &[u32]) -> bool {
    read(words).is_some()
}

/// The lists of a sound store; nothing if the words are not sound.
pub fn read(words: &[u32]) -> Option<Store> {
    let header = header(words)?;
    let store = lists(words, &header)?;
    all(&[
        store.cards_held() == header.cards as usize,
        store.faults_held() == header.faults as usize,
        load_fits(&store),
        each_card_at_home(&store),
        no_serial_twice(&store),
    ])?;
    Some(store)
}

/// Goes on only where every clause holds.
fn all(clauses: &[bool]) -> Option<()> {
    clauses.iter().all(|&holds| holds).then_some(())
}

// ---- the header and the directory

struct Header {
    format: Format,
    limits: Limits,
    offsets: Offsets,
    state: State,
    cards: u32,
    faults: u32,
    free_card: u32,
    free_fault: u32,
}

fn header(words: &[u32]) -> Option<Header> {
    let limits = Limits { cards: *words.get(1)?, faults: *words.get(2)? };
    all(&[limits.in_range()])?;
    let offsets = Offsets::of(limits);
    all(&[words.len() == offsets.end])?;
    let format = Format::read([words[0], words[14]])?;
    all(&[words[9..14] == offsets.words(), words[15] == 0])?;
    let state = State { maxp: words[3], p: words[4] };
    all(&[rules::states().any(|known| known == state)])?;
    all(&[words[offsets.directory..offsets.segments] == layout::directory(state.buckets() as usize)])?;
    let (cards, faults, free_card, free_fault) = (words[5], words[6], words[7], words[8]);
    Some(Header { format, limits, offsets, state, cards, faults, free_card, free_fault })
}

// ---- cells and chains

/// The cells of one kind, the same number of words each.
struct Pool<'a> {
    words: &'a [u32],
    width: usize,
}

impl<'a> Pool<'a> {
    fn count(&self) -> usize {
        self.words.len() / self.width
    }

    fn cell(&self, number: u32) -> &'a [u32] {
        let start = (number as usize - 1) * self.width;
        &self.words[start..start + self.width]
    }

    /// The next word of every cell.
    fn nexts(&self) -> impl Iterator<Item = u32> + 'a {
        self.words.iter().step_by(self.width).copied()
    }

    /// The cells from this one on. It ends, since every cell is pointed to once.
    fn walk(&self, head: u32) -> Vec<u32> {
        let mut chain = Vec::new();
        let mut at = head;
        while at != 0 {
            chain.push(at);
            at = self.cell(at)[0];
        }
        chain
    }

    fn is_clear(&self, number: u32) -> bool {
        self.cell(number)[1..].iter().all(|&word| word == 0)
    }

    fn pointed_to_once(&self, heads: &[u32]) -> bool {
        let mut targets: Vec<u32> = heads.iter().copied().chain(self.nexts()).filter(|&target| target != 0).collect();
        targets.sort_unstable();
        targets.into_iter().eq(1..=self.count() as u32)
    }

    /// The chains of these heads, if every cell stands in exactly one of them.
    fn chains(&self, heads: &[u32]) -> Option<Vec<Vec<u32>>> {
        all(&[self.pointed_to_once(heads)])?;
        let chains: Vec<Vec<u32>> = heads.iter().map(|&head| self.walk(head)).collect();
        all(&[chains.iter().map(Vec::len).sum::<usize>() == self.count()])?;
        Some(chains)
    }

    /// The chains of these heads and the chain of free cells behind them; a free cell is zero but for its next word.
    fn chains_and_free(&self, heads: &[u32], free: u32) -> Option<(Vec<Vec<u32>>, Vec<u32>)> {
        let mut chains = self.chains(&[heads, &[free]].concat())?;
        let free = chains.pop()?;
        all(&[free.iter().all(|&cell| self.is_clear(cell))])?;
        Some((chains, free))
    }
}

// ---- the lists

fn lists(words: &[u32], header: &Header) -> Option<Store> {
    let Offsets { segments, cards, faults, end, .. } = header.offsets;
    let card_pool = Pool { words: &words[cards..faults], width: CARD_WORDS };
    let fault_pool = Pool { words: &words[faults..end], width: FAULT_WORDS };
    let (heads, unused) = words[segments..cards].split_at(header.state.buckets() as usize);
    all(&[unused.iter().all(|&word| word == 0)])?;

    let (chains, free_cards) = card_pool.chains_and_free(heads, header.free_card)?;
    let first_faults: Vec<u32> = chains.iter().flatten().map(|&cell| card_pool.cell(cell)[6]).collect();
    let (histories, free_faults) = fault_pool.chains_and_free(&first_faults, header.free_fault)?;

    let mut histories = histories.iter();
    let mut card = |&cell: &u32| read_card(cell, card_pool.cell(cell), histories.next()?, &fault_pool);
    let buckets = chains.iter().map(|chain| chain.iter().map(&mut card).collect()).collect::<Option<_>>()?;
    let Header { format, limits, state, .. } = *header;
    Some(Store { format, limits, state, buckets, free_cards, free_faults })
}

/// A held card from its words and its chain of fault cells: a valid serial, a true last fault and count, valid faults.
fn read_card(cell: u32, words: &[u32], history: &[u32], pool: &Pool) -> Option<Card> {
    let serial = Serial::stored(words[1], &words[2..6])?;
    let last = history.last().copied().unwrap_or(0);
    all(&[words[7] == last, words[8] as usize == history.len()])?;
    let faults = history.iter().map(|&cell| read_fault(cell, pool.cell(cell))).collect::<Option<_>>()?;
    Some(Card { cell, serial, faults })
}

fn read_fault(cell: u32, words: &[u32]) -> Option<Fault> {
    let entry = Entry { day: words[1], code: words[2] };
    entry.in_range().then_some(Fault { cell, entry })
}

// ---- clauses about the whole

fn load_fits(store: &Store) -> bool {
    let (n, bounds) = (store.cards_held(), store.format.bounds());
    !rules::splits(n, store.state, bounds) && !rules::contracts(n, store.state, bounds)
}

fn each_card_at_home(store: &Store) -> bool {
    store.buckets.iter().enumerate().all(|(bucket, chain)| chain.iter().all(|card| store.home(&card.serial) == bucket))
}

fn no_serial_twice(store: &Store) -> bool {
    let mut serials: Vec<&Serial> = store.cards().map(|card| &card.serial).collect();
    serials.sort_unstable();
    serials.windows(2).all(|pair| pair[0] != pair[1])
}
