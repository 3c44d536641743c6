//! What is a sound store and what is not. Every damage of one word is judged twice, by the clauses of `sound` and by a second judge
//! that works another way: it reads lists out of the words with a limit on steps, and the words must be those of the lists.
mod common;

use common::{serials, Reader};
use reference::calls;
use reference::layout::{encode, Offsets};
use reference::lists::{Card, Entry, Fault, Format, Limits, Store};
use reference::rules::{self, Bounds, State};
use reference::serial::Serial;
use reference::sound::sound;
use std::collections::BTreeSet;
use std::ops::Range;

// ---- the second judge

/// A chain as it stands, if it ends within the number of cells and stays among them.
fn chain(words: &[u32], start: usize, width: usize, cells: u32, head: u32) -> Option<Vec<u32>> {
    let mut found = Vec::new();
    let mut at = head;
    while at != 0 {
        if at > cells || found.len() == cells as usize {
            return None;
        }
        found.push(at);
        at = words[start + width * (at as usize - 1)];
    }
    Some(found)
}

fn card_as_found(words: &[u32], limits: Limits, cell: u32) -> Option<Card> {
    let offsets = Offsets::of(limits);
    let at = offsets.cards + 9 * (cell as usize - 1);
    let fault = |cell: u32| {
        let at = offsets.faults + 3 * (cell as usize - 1);
        Fault { cell, entry: Entry { day: words[at + 1], code: words[at + 2] } }
    };
    let faults = chain(words, offsets.faults, 3, limits.faults, words[at + 6])?.into_iter().map(fault).collect();
    Some(Card { cell, serial: Serial::stored(words[at + 1], &words[at + 2..at + 6])?, faults })
}

/// Format 1 says nothing of bounds; in format 2 they are whole part and remainder of word 14 by 256.
fn format_as_found(words: &[u32]) -> Option<Format> {
    match (words[0], words[14]) {
        (1, 0) => Some(Format::One),
        (2, both) => Some(Format::Two(Bounds { upper: both / 256, lower: both % 256 })),
        _ => None,
    }
}

fn lists_as_found(words: &[u32]) -> Option<Store> {
    let limits = Limits { cards: *words.get(1)?, faults: *words.get(2)? };
    let state = State { maxp: *words.get(3)?, p: *words.get(4)? };
    let buckets = u64::from(state.maxp) + u64::from(state.p);
    if !limits.in_range() || words.len() != Offsets::of(limits).end || buckets > 256 {
        return None;
    }
    let cards = |head: u32| chain(words, 288, 9, limits.cards, head);
    let bucket = |head: &u32| cards(*head)?.into_iter().map(|cell| card_as_found(words, limits, cell)).collect();
    let heads = &words[32..32 + buckets as usize];
    Some(Store {
        format: format_as_found(words)?,
        limits,
        state,
        buckets: heads.iter().map(bucket).collect::<Option<_>>()?,
        free_cards: cards(words[7])?,
        free_faults: chain(words, Offsets::of(limits).faults, 3, limits.faults, words[8])?,
    })
}

/// Whether the cells of all lists are 1, 2, 3 to the last, each once.
fn each_once(limit: u32, cells: Vec<u32>) -> bool {
    let different: BTreeSet<u32> = cells.iter().copied().collect();
    cells.len() == limit as usize && different.into_iter().eq(1..=limit)
}

fn good(store: &Store) -> bool {
    let cards = store.cards().map(|card| card.cell).chain(store.free_cards.iter().copied()).collect();
    let faults: Vec<&Fault> = store.cards().flat_map(|card| &card.faults).collect();
    let fault_cells = faults.iter().map(|fault| fault.cell).chain(store.free_faults.iter().copied()).collect();
    let serials: BTreeSet<&Serial> = store.cards().map(|card| &card.serial).collect();
    let (n, b) = (store.cards_held(), store.buckets.len());
    let Bounds { upper, lower } = store.format.bounds();
    let (u, l) = (upper as usize, lower as usize);
    [16, 32, 64, 128, 256].contains(&store.state.maxp)
        && store.state.p < store.state.maxp
        && each_once(store.limits.cards, cards)
        && each_once(store.limits.faults, fault_cells)
        && faults.iter().all(|fault| fault.entry.in_range())
        && serials.len() == n
        && (2..=10).contains(&u)
        && l > 0
        && 2 * l <= u
        && (n <= u * b || b == 256)
        && (b == 16 || n >= l * b)
        && (0..b).all(|at| store.buckets[at].iter().all(|card| store.home(&card.serial) == at))
}

fn written_again(words: &[u32]) -> bool {
    lists_as_found(words).map_or(false, |store| good(&store) && encode(&store) == words)
}

// ---- stores to try

fn small_store() -> Reader {
    let mut reader = Reader::open(5, 6);
    for serial in ["7", "07", "007", "A-B"] {
        reader.enter(serial);
    }
    for (serial, day) in [("007", 1), ("7", 2), ("007", 3), ("A-B", 65_535)] {
        reader.file(serial, day, 9_999);
    }
    reader.withdraw("07");
    reader
}

/// A store with more than 16 buckets, so with a second segment.
fn grown_store() -> Reader {
    let mut reader = Reader::open(75, 3);
    reader.enter_all(&serials(72));
    reader.file("C5", 5, 5);
    reader
}

/// A store with 33 buckets, two segments in full use and one just begun.
fn wide_store() -> Reader {
    let mut reader = Reader::open(140, 2);
    reader.enter_all(&serials(130));
    reader
}

/// A store of 256 buckets with more cards than its upper bound allows.
fn store_over_its_bound() -> Reader {
    let mut reader = Reader::open_with(520, 1, 2, 1);
    reader.enter_all(&serials(520));
    assert_eq!(reader.words[3..6], [256, 0, 520]);
    reader
}

/// A store of lists with this format and state and n cards, each at home, whether or not the load allows it.
fn loaded(format: Format, state: State, n: usize) -> Vec<u32> {
    let mut store = Store::fresh(Limits { cards: 1_024, faults: 1 }, Bounds::USUAL);
    store.format = format;
    store.state = state;
    store.buckets = vec![Vec::new(); state.buckets() as usize];
    for serial in serials(n) {
        let serial = Serial::new(serial.as_bytes()).unwrap();
        let home = store.home(&serial);
        store.place(home, serial);
    }
    encode(&store)
}

// ---- what is sound

#[test]
fn fresh_stores_are_sound() {
    for (cards, faults) in [(1, 1), (1, 2_048), (1_024, 1), (256, 512), (1_024, 2_048)] {
        assert!(sound(&Reader::open(cards, faults).words), "C {cards}, F {faults}");
    }
}

#[test]
fn a_fresh_store_word_by_word() {
    let words = Reader::open(3, 2).words;
    assert_eq!(words.len(), 288 + 27 + 6);
    assert_eq!(words[..16], [2, 3, 2, 16, 0, 0, 0, 1, 1, 16, 32, 288, 315, 321, 1_026, 0]);
    assert_eq!(words[16], 32);
    assert!(words[17..288].iter().all(|&word| word == 0));
    assert_eq!(words[288..297], [2, 0, 0, 0, 0, 0, 0, 0, 0]);
    assert_eq!(words[297..306], [3, 0, 0, 0, 0, 0, 0, 0, 0]);
    assert_eq!(words[306..315], [0; 9]);
    assert_eq!(words[315..], [2, 0, 0, 0, 0, 0]);
}

#[test]
fn a_held_card_word_by_word() {
    let mut reader = Reader::open(3, 2);
    reader.enter("7");
    reader.enter("A-123");
    reader.file("A-123", 300, 12);
    reader.file("A-123", 301, 13);
    let words = reader.words;
    let (code_of_7, code_of_a) = (rules::code(b"7"), rules::code(b"A-123"));
    assert_eq!(words[5..9], [2, 2, 3, 0]);
    assert_eq!(words[32 + code_of_7 as usize % 16], 1);
    assert_eq!(words[32 + code_of_a as usize % 16], 2);
    assert_eq!(words[288..297], [0, 1, 0x3700_0000, 0, 0, 0, 0, 0, 0]);
    assert_eq!(words[297..306], [0, 5, 0x412d_3132, 0x3300_0000, 0, 0, 1, 2, 2]);
    assert_eq!(words[315..], [2, 300, 12, 0, 301, 13]);
}

#[test]
fn chains_may_stand_in_any_order() {
    let mut store = small_store().lists();
    store.buckets[7].reverse();
    store.free_cards.reverse();
    store.free_faults.reverse();
    assert!(sound(&encode(&store)));
}

#[test]
fn the_load_decides_at_its_bounds() {
    let state = |maxp, p| State { maxp, p };
    let cases = [
        (state(16, 0), 0, true),
        (state(16, 0), 64, true),
        (state(16, 0), 65, false),
        (state(16, 1), 33, false),
        (state(16, 1), 34, true),
        (state(16, 1), 68, true),
        (state(16, 1), 69, false),
        (state(32, 0), 63, false),
        (state(32, 0), 64, true),
        (state(128, 127), 1_020, true),
        (state(128, 127), 1_021, false),
        (state(256, 0), 511, false),
        (state(256, 0), 512, true),
        (state(256, 0), 1_024, true),
    ];
    for (state, n, expected) in cases {
        assert_eq!(sound(&loaded(Format::One, state, n)), expected, "{state:?} with {n} cards, format 1");
        assert_eq!(sound(&loaded(USUAL, state, n)), expected, "{state:?} with {n} cards");
    }
}

const USUAL: Format = Format::Two(Bounds::USUAL);

/// At the least table there is no lower bound, and at the greatest no upper one.
#[test]
fn the_load_decides_at_the_bounds_of_its_store() {
    let tables = [(16, 0), (16, 1), (32, 0), (64, 37), (128, 127), (256, 0)];
    for (upper, lower) in [(2, 1), (3, 1), (5, 2), (9, 4), (10, 1), (10, 5)] {
        let format = Format::Two(Bounds { upper, lower });
        for state in tables.map(|(maxp, p)| State { maxp, p }) {
            let (b, least, most) = (state.buckets(), lower * state.buckets(), upper * state.buckets());
            let cases = [(least - 1, b == 16), (least, true), (most, true), (most + 1, b == 256)];
            for (n, expected) in cases.into_iter().filter(|&(n, _)| n <= 1_024) {
                let judged = sound(&loaded(format, state, n as usize));
                assert_eq!(judged, expected, "U {upper}, L {lower}, {b} buckets, {n} cards");
            }
        }
    }
    let lowest = Format::Two(Bounds { upper: 2, lower: 1 });
    assert!(sound(&loaded(lowest, State { maxp: 256, p: 0 }, 1_024)));
}

#[test]
fn format_1_has_0_in_word_14_and_format_2_its_bounds() {
    let mut words = small_store().words;
    let mut judged = |format, bounds| {
        (words[0], words[14]) = (format, bounds);
        sound(&words)
    };
    for bounds in 0..70_000 {
        let (upper, lower) = (bounds / 256, bounds % 256);
        let fits = (2..=10).contains(&upper) && lower >= 1 && 2 * lower <= upper;
        assert_eq!(judged(2, bounds), fits, "format 2, word 14 is {bounds}");
        assert_eq!(judged(1, bounds), bounds == 0, "format 1, word 14 is {bounds}");
    }
    for bounds in (0..32).map(|bit| 1_026 ^ (1 << bit)).chain([u32::MAX]) {
        // Of these only two are bounds: 5 and 2, 6 and 2.
        let fits = [5 * 256 + 2, 6 * 256 + 2].contains(&bounds);
        assert_eq!(judged(2, bounds), fits, "format 2, word 14 is {bounds}");
    }
    for format in [0, 3, 4, 5, 256, 1 << 31, (1 << 31) + 2, u32::MAX] {
        assert!(!judged(format, 0) && !judged(format, 1_026), "format {format}");
    }
}

// ---- what is not

#[test]
fn another_length_is_not_sound() {
    for length in 0..400 {
        assert!(!sound(&vec![0; length]), "{length} zeros");
        assert!(!sound(&vec![1; length]), "{length} ones");
    }
    let words = small_store().words;
    for length in 0..words.len() {
        assert!(!sound(&words[..length]), "cut to {length}");
    }
    assert!(!sound(&[&words[..], &[0]].concat()));
}

/// Values that may pass for the word that stands there: near it, with one bit changed, and at the edges of what a word can mean.
fn other_values(word: u32) -> BTreeSet<u32> {
    let mut values: BTreeSet<u32> = (0..32).map(|bit| word ^ (1 << bit)).collect();
    values.extend([0, 1, 2, 3, 4, 5, 6, 7, 16, 17, 32, 48, 9_999, 10_000, 65_535, 65_536, u32::MAX]);
    values.extend([word.wrapping_sub(1), word.wrapping_add(1)]);
    values.remove(&word);
    values
}

/// The words that may hold another value in a sound store: a held fault's day and code, a held card's serial, p, where
/// no card's address and no segment depends on it, and the bounds, which format 1 does not have.
fn free_to_change(store: &Store) -> BTreeSet<usize> {
    let offsets = Offsets::of(store.limits);
    let mut places = BTreeSet::from([4]);
    if store.format != Format::One {
        places.insert(14);
    }
    for card in store.cards() {
        let at = offsets.cards + 9 * (card.cell as usize - 1);
        places.extend(at + 2..at + 6);
        for fault in &card.faults {
            let at = offsets.faults + 3 * (fault.cell as usize - 1);
            places.extend([at + 1, at + 2]);
        }
    }
    places
}

fn judge_every_damage(reader: &Reader) {
    judge_damage(reader, 0..reader.words.len());
}

fn judge_damage(reader: &Reader, places: Range<usize>) {
    let may_change = free_to_change(&reader.lists());
    let mut words = reader.words.clone();
    for at in places {
        let kept = words[at];
        for value in other_values(kept) {
            words[at] = value;
            let verdict = sound(&words);
            assert_eq!(verdict, written_again(&words), "word {at} is {value} for {kept}");
            assert!(!verdict || may_change.contains(&at), "word {at} is {value} for {kept}, and the store passes");
        }
        words[at] = kept;
    }
    assert!(sound(&words) && written_again(&words));
}

#[test]
fn every_damage_of_a_fresh_store() {
    judge_every_damage(&Reader::open(3, 4));
}

#[test]
fn every_damage_of_a_small_store() {
    judge_every_damage(&small_store());
}

#[test]
fn every_damage_of_a_grown_store() {
    judge_every_damage(&grown_store());
}

#[test]
fn every_damage_of_a_wide_store() {
    judge_every_damage(&wide_store());
}

#[test]
fn every_damage_of_stores_of_format_1() {
    judge_every_damage(&Reader::format_1(3, 4));
    let mut reader = Reader::format_1(75, 3);
    reader.enter_all(&serials(72));
    judge_every_damage(&reader);
}

#[test]
fn every_damage_of_stores_of_other_bounds() {
    for (upper, lower) in [(2, 1), (10, 5)] {
        let mut reader = Reader::open_with(75, 3, upper, lower);
        reader.enter_all(&serials(72));
        judge_every_damage(&reader);
    }
}

/// The header alone, since each verdict takes its time there.
#[test]
fn damage_of_the_header_of_a_store_over_its_bound() {
    judge_damage(&store_over_its_bound(), 0..16);
}

#[test]
fn every_damage_of_a_full_store() {
    let mut reader = Reader::open(2, 2);
    for serial in ["A", "B"] {
        reader.enter(serial);
        reader.file(serial, 1, 1);
    }
    judge_every_damage(&reader);
}

/// Two words damaged at once can hide each other from a check that only counts.
#[test]
fn pairs_of_damage() {
    let reader = small_store();
    let places: Vec<usize> = (3..9).chain([39]).chain(288..reader.words.len()).collect();
    for &a in &places {
        for &b in &places {
            let mut words = reader.words.clone();
            words.swap(a, b);
            assert_eq!(sound(&words), written_again(&words), "words {a} and {b} changed places");
            let mut words = reader.words.clone();
            (words[a], words[b]) = (words[a].wrapping_add(1), words[b].wrapping_sub(1));
            assert_eq!(sound(&words), written_again(&words), "word {a} one more, word {b} one less");
        }
    }
}

#[test]
fn a_ring_of_free_cells_is_not_sound() {
    let mut reader = Reader::open(4, 4);
    // Free cells 1 and 2 stay a chain; 3 and 4 point to each other.
    reader.words[288 + 9] = 0;
    reader.words[288 + 9 * 3] = 3;
    assert!(!sound(&reader.words));
}

#[test]
fn a_card_in_another_bucket_is_not_sound() {
    let mut store = small_store().lists();
    let card = store.buckets[7].remove(0);
    store.buckets[8].push(card);
    assert!(!sound(&encode(&store)));
}

#[test]
fn a_serial_held_twice_is_not_sound() {
    let mut store = small_store().lists();
    let serial = store.buckets[7][0].serial.clone();
    store.place(7, serial);
    assert!(!sound(&encode(&store)));
}

#[test]
fn every_call_refuses_a_damaged_store_and_leaves_it() {
    let mut reader = small_store();
    reader.words[5] += 1;
    let (before, room) = (reader.words.clone(), reader.room.clone());
    assert_eq!(reader.enter("NEW"), [3, 0, 0, 0]);
    assert_eq!(reader.file("7", 1, 1), [3, 0, 0, 0]);
    assert_eq!(reader.show("7"), [3, 0, 0, 0]);
    assert_eq!(reader.withdraw("7"), [3, 0, 0, 0]);
    assert_eq!((&reader.words, &reader.room), (&before, &room));
    // Opening it again makes it whole.
    assert_eq!(calls::open(&mut reader.words, 5, 6, 4, 2), 0);
    assert_eq!(reader.words, Reader::open(5, 6).words);
}
