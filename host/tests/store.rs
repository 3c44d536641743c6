//! The safe interface: stores that own their words and such that are lent them, their listings, refusals, jobs and reports.
use card_store::{
    calls, report, Bounds, Counts, Fault, Held, LentStore, Limits, Refusal, Store, Tally, LONGEST_ANSWER, LONGEST_JOB,
    SCRATCH,
};
use reference::desk;
use reference::job;
use reference::layout;
use reference::lists;
use reference::random::Random;
use reference::report as second_report;
use reference::rules;
use reference::sound;
use std::thread;

const LIMITS: Limits = Limits { cards: 64, faults: 128 };

fn store() -> Store {
    Store::new(LIMITS).expect("good limits")
}

fn faults(pairs: &[(u32, u32)]) -> Vec<Fault> {
    pairs.iter().map(|&(day, code)| Fault { day, code }).collect()
}

/// The store in lists, as the second program reads its words.
fn lists_of(words: &[u32]) -> lists::Store {
    sound::read(words).expect("sound words")
}

#[test]
fn seven_has_three_cards() {
    let mut store = store();
    for serial in ["7", "07", "007"] {
        assert_eq!(store.enter(serial).map(|counts| counts.faults), Ok(0), "{serial}");
    }
    store.file("007", 100, 12).expect("a held card");
    store.file("07", 90, 40).expect("a held card");
    assert_eq!(store.show("7").expect("held").faults, []);
    assert_eq!(store.show("07").expect("held").faults, faults(&[(90, 40)]));
    assert_eq!(store.show("007").expect("held").faults, faults(&[(100, 12)]));
    assert_eq!(store.withdraw("007").expect("held").faults, faults(&[(100, 12)]));
    assert_eq!(store.show("007"), Err(Refusal::NotHeld));
    store.enter("007").expect("a card that comes back");
    assert_eq!(store.show("007").expect("held").faults, []);
    assert_eq!(store.show("07").expect("held").faults, faults(&[(90, 40)]));
}

#[test]
fn serials_are_any_bytes() {
    let mut store = store();
    store.enter("A-1").expect("a str");
    assert_eq!(store.enter(b"A-1"), Err(Refusal::AlreadyHeld), "an array");
    assert_eq!(store.enter(String::from("A-1")), Err(Refusal::AlreadyHeld), "a String");
    assert_eq!(store.enter(vec![b'A', b'-', b'1']), Err(Refusal::AlreadyHeld), "a Vec");
    store.enter("1234567890ABCDEF").expect("sixteen bytes");
    for serial in ["", "1234567890ABCDEFG", "1234567890ABCDEF\0", "a", "7\0", "7 ", "Ä", &"7".repeat(1_000)] {
        assert_eq!(store.enter(serial), Err(Refusal::BadSerial), "{serial:?}");
        assert_eq!(store.file(serial, 1, 1), Err(Refusal::BadSerial), "{serial:?}");
        assert_eq!(store.show(serial), Err(Refusal::BadSerial), "{serial:?}");
        assert_eq!(store.withdraw(serial), Err(Refusal::BadSerial), "{serial:?}");
    }
}

#[test]
fn done_calls_tell_their_counts() {
    let mut store = store();
    let counts = |comparisons, scanned, faults| Counts { comparisons, scanned, faults };
    assert_eq!(store.enter("7"), Ok(counts(0, 0, 0)));
    assert_eq!(store.enter("007"), Ok(counts(1, 0, 0)));
    assert_eq!(store.file("007", 100, 12), Ok(counts(2, 0, 1)));
    assert_eq!(store.file("007", 99, 12), Ok(counts(2, 0, 2)));
    assert_eq!(store.show("007").map(|listing| listing.counts), Ok(counts(2, 0, 2)));
    assert_eq!(store.withdraw("007").map(|listing| listing.counts), Ok(counts(2, 0, 2)));
}

#[test]
fn splits_and_contractions_are_told() {
    let mut store = Store::with_bounds(LIMITS, Bounds { upper: 2, lower: 1 }).expect("good bounds");
    let entered: Vec<Counts> = (0..40).map(|card| store.enter(format!("{card}")).expect("room")).collect();
    assert!(entered[..32].iter().all(|counts| counts.scanned == 0), "32 cards in 16 buckets");
    assert!(entered[32..].iter().any(|counts| counts.scanned > 0), "more than 2 cards a bucket");
    let last_first = (0..40).rev();
    let withdrawn: Vec<Counts> =
        last_first.map(|card| store.withdraw(format!("{card}")).expect("held").counts).collect();
    assert!(withdrawn[..20].iter().all(|counts| counts.scanned == 0), "20 cards in 20 buckets");
    assert!(withdrawn.iter().any(|counts| counts.scanned > 0), "fewer than 1 card a bucket");
    assert_eq!(store.words()[3..5], [16, 0]);
}

#[test]
fn listings_are_by_day() {
    let mut store = store();
    store.enter("BRK-17").expect("room");
    for (day, code) in [(140, 12), (151, 30), (140, 7), (133, 12)] {
        store.file("BRK-17", day, code).expect("held");
    }
    let by_day = faults(&[(133, 12), (140, 12), (140, 7), (151, 30)]);
    assert_eq!(store.show("BRK-17").expect("held").faults, by_day);
    assert_eq!(store.withdraw("BRK-17").expect("held").faults, by_day);
}

#[test]
fn the_longest_history_is_listed() {
    let mut store = Store::new(Limits { cards: 2, faults: 2_048 }).expect("good limits");
    store.enter("7").expect("room");
    for k in 0..2_048 {
        assert_eq!(store.file("7", 1 + k, 9_999 - k).map(|counts| counts.faults), Ok(k + 1));
    }
    assert_eq!(store.file("7", 1, 1), Err(Refusal::FaultsFull));
    let listed = store.withdraw("7").expect("held").faults;
    assert_eq!(listed, (0..2_048).map(|k| Fault { day: 1 + k, code: 9_999 - k }).collect::<Vec<_>>());
}

#[test]
fn listings_are_gone_through() {
    let mut store = store();
    store.enter("BRK-17").expect("room");
    for (day, code) in [(140, 12), (151, 9_999), (65_535, 7), (1, 1)] {
        store.file("BRK-17", day, code).expect("held");
    }
    let listing = store.show("BRK-17").expect("held");
    let lent: Vec<&Fault> = (&listing).into_iter().collect();
    assert_eq!(lent, listing.faults.iter().collect::<Vec<_>>());
    let mut days = Vec::new();
    for fault in &listing {
        days.push(fault.day);
    }
    assert_eq!(days, [1, 140, 151, 65_535]);
    assert_eq!(listing.clone().into_iter().collect::<Vec<Fault>>(), listing.faults);
}

/// As a job's answer has them.
#[test]
fn faults_are_written_as_in_a_job() {
    let mut store = store();
    let text = "E 7\nF 7 65535 9999\nF 7 1 1\nF 7 100 12\n";
    store.job(text, &mut Tally::default()).expect("a good job");
    let listing = store.show("7").expect("held");
    let written: String = listing.into_iter().map(|fault| format!(" {fault}")).collect();
    assert_eq!(written, " 1:1 100:12 65535:9999");
    assert_eq!(store.job("S 7\n", &mut Tally::default()), Ok(format!("0 1 0 3{written}\n")));
}

// ---- what a store is for and what it holds

/// Limits, bounds and what is held, as the store tells them.
fn told(words: &[u32]) -> Result<(Limits, Bounds, Held), Refusal> {
    // Scratch plays no part here.
    let store = Store::over(words, [0u8; 0]);
    let told = (store.limits(), store.bounds(), store.held());
    match told {
        (Ok(limits), Ok(bounds), Ok(held)) => Ok((limits, bounds, held)),
        (Err(limits), Err(bounds), Err(held)) if limits == bounds && bounds == held => Err(limits),
        _ => panic!("told and refused: {told:?}"),
    }
}

/// The same as the second program reads it off the words.
fn second_told(words: &[u32]) -> Result<(Limits, Bounds, Held), Refusal> {
    let lists = sound::read(words).ok_or(Refusal::NotSound)?;
    let lists::Limits { cards, faults } = lists.limits;
    let rules::Bounds { upper, lower } = lists.format.bounds();
    let held = Held { cards: lists.cards_held() as u32, faults: lists.faults_held() as u32 };
    Ok((Limits { cards, faults }, Bounds { upper, lower }, held))
}

#[test]
fn limits_bounds_and_what_is_held() {
    for rules::Bounds { upper, lower } in rules::Bounds::all() {
        let (limits, bounds) = (Limits { cards: 30 + upper, faults: 50 + lower }, Bounds { upper, lower });
        let mut store = Store::with_bounds(limits, bounds).expect("good limits and bounds");
        assert_eq!(told(store.words()), Ok((limits, bounds, Held { cards: 0, faults: 0 })));
        for card in 0..20 {
            store.enter(format!("{card}")).expect("room");
            store.file(format!("{card}"), 1 + card, 1 + card).expect("room");
            store.file("0", 1 + card, 1 + card).expect("room");
        }
        assert_eq!(told(store.words()), Ok((limits, bounds, Held { cards: 20, faults: 40 })));
        store.withdraw("0").expect("held");
        assert_eq!(told(store.words()), Ok((limits, bounds, Held { cards: 19, faults: 19 })));
        assert_eq!(told(store.words()), second_told(store.words()));
    }
    let limits = Limits { cards: 1_024, faults: 2_048 };
    assert_eq!(Store::new(limits).expect("good limits").limits(), Ok(limits));
}

/// Each word of the header and some behind it, each changed to many others. The store tells its numbers where the second
/// program finds the words sound, and is refused where it does not.
#[test]
fn damaged_words_tell_no_numbers() {
    let mut store = store();
    store.job("E 7\nE 07\nF 7 100 12\nF 07 90 40\nF 7 80 1\n", &mut Tally::default()).expect("a good job");
    let words = store.into_words();
    let (mut refused, mut other_bounds) = (0, 0);
    for at in (0..40).chain(280..320) {
        for value in (0..70).chain([128, 513, 1_025, 1_026, 2_565, 66_562, words[at] ^ (1 << 31), u32::MAX]) {
            let mut damaged = words.clone();
            damaged[at] = value;
            let told = told(&damaged);
            assert_eq!(told, second_told(&damaged), "word {at} is {value}");
            refused += usize::from(told == Err(Refusal::NotSound));
            other_bounds += usize::from(told.map(|(_, bounds, _)| bounds != Bounds::default()) == Ok(true));
        }
    }
    assert!(refused > 5_000, "only {refused} are refused");
    // 2 and 1, 4 and 1, 10 and 5 are bounds that a store may have.
    assert_eq!(other_bounds, 3);
    for length in [0, 1, 15, 16, 17, 299, words.len() - 1] {
        assert_eq!(told(&words[..length]), Err(Refusal::NotSound), "{length} words");
    }
}

#[test]
fn debug_tells_numbers_and_no_words() {
    let mut store = Store::with_bounds(LIMITS, Bounds { upper: 9, lower: 3 }).expect("good bounds");
    store.job("E 7\nE 07\nF 7 100 12\n", &mut Tally::default()).expect("a good job");
    let wanted = "Store { limits: Limits { cards: 64, faults: 128 }, bounds: Bounds { upper: 9, lower: 3 }, \
                  held: Held { cards: 2, faults: 1 } }";
    assert_eq!(format!("{store:?}"), wanted);
    let mut words = store.into_words();
    assert_eq!(format!("{:?}", Store::over(&words[..], [0u8; 0])), wanted);
    words[5] = 1;
    assert_eq!(format!("{:?}", Store::over(words, [0u8; 0])), "Store { refused: NotSound, words: 1248 }");
}

#[test]
fn stores_are_equal_by_their_words() {
    let mut own = store();
    own.enter("007").expect("room");
    let (mut words, mut scratch) = (own.words().to_vec(), [7; SCRATCH]);
    let mut lent: LentStore = Store::over(&mut words[..], &mut scratch[..]);
    assert_eq!(own, lent);
    assert_eq!(own, own.clone());
    lent.file("007", 100, 12).expect("held");
    assert_ne!(own, lent);
    own.file("007", 100, 12).expect("held");
    assert_eq!(lent, own);
    assert_ne!(own, Store::over(&own.words()[1..], [0u8; 0]));
    // Each word counts.
    for at in 0..own.words().len() {
        let mut other = own.words().to_vec();
        other[at] ^= 1;
        assert_ne!(own, Store::over(other, [0u8; 0]), "word {at}");
    }
}

// ---- refusals

#[test]
fn refusals_of_opening() {
    let opened = |cards, faults, upper, lower| {
        Store::with_bounds(Limits { cards, faults }, Bounds { upper, lower }).map(|store| store.words().len())
    };
    assert_eq!(opened(1, 1, 2, 1), Ok(300));
    assert_eq!(opened(1_024, 2_048, 10, 5), Ok(15_648));
    for (cards, faults) in [(0, 1), (1, 0), (1_025, 1), (1, 2_049), (u32::MAX, u32::MAX)] {
        assert_eq!(opened(cards, faults, 4, 2), Err(Refusal::BadLimits), "{cards} cards, {faults} faults");
        assert_eq!(opened(cards, faults, 0, 0), Err(Refusal::BadLimits), "limits are tested before bounds");
    }
    for (upper, lower) in [(1, 1), (11, 5), (4, 0), (4, 3), (4, u32::MAX)] {
        assert_eq!(opened(8, 8, upper, lower), Err(Refusal::BadBounds), "bounds {upper} and {lower}");
    }
    for length in [0, LIMITS.words() - 1, LIMITS.words() + 1] {
        let mut words = vec![7; length];
        let opened = Store::open_in(&mut words, [0; SCRATCH], LIMITS, Bounds::default());
        assert_eq!(opened.err(), Some(Refusal::BadLength), "{length} words");
        assert_eq!(words, vec![7; length]);
    }
}

#[test]
fn refused_calls_change_no_word() {
    let mut store = Store::new(Limits { cards: 2, faults: 1 }).expect("good limits");
    store.enter("7").expect("room");
    store.enter("07").expect("room");
    store.file("7", 1, 1).expect("room");
    let before = store.words().to_vec();
    assert_eq!(store.enter("7"), Err(Refusal::AlreadyHeld));
    assert_eq!(store.enter("007"), Err(Refusal::CardsFull));
    assert_eq!(store.file("7", 2, 2), Err(Refusal::FaultsFull));
    assert_eq!(store.file("007", 2, 2), Err(Refusal::NotHeld));
    assert_eq!(store.withdraw("007"), Err(Refusal::NotHeld));
    for (day, code) in [(0, 1), (65_536, 1), (1, 0), (1, 10_000)] {
        assert_eq!(store.file("7", day, code), Err(Refusal::BadFault), "{day}:{code}");
    }
    assert_eq!(store.words(), before);
}

/// Each method is refused by this, and no word changes.
fn all_refused<W: AsRef<[u32]> + AsMut<[u32]>, S: AsMut<[u8]>>(mut store: Store<W, S>, refusal: Refusal) {
    let before = store.words().to_vec();
    assert_eq!(store.check(), Err(refusal));
    assert_eq!(store.enter("7"), Err(refusal));
    assert_eq!(store.file("7", 1, 1), Err(refusal));
    assert_eq!(store.show("7"), Err(refusal));
    assert_eq!(store.withdraw("7"), Err(refusal));
    let mut tally = Tally { entries: 3, ..Tally::default() };
    assert_eq!(store.job("E 7\n", &mut tally), Err(refusal));
    assert_eq!(tally, Tally { entries: 3, ..Tally::default() });
    assert_eq!(store.words(), before);
}

#[test]
fn damaged_words_are_refused() {
    let mut words = store().into_words();
    words[20] = 1;
    all_refused(Store::over(&mut words, [0; SCRATCH]), Refusal::NotSound);
    all_refused(Store::over(vec![0; 0], [0; SCRATCH]), Refusal::NotSound);
    assert_eq!(report(&[&words]), Err(Refusal::NotSound));
}

#[test]
fn short_scratch_is_refused() {
    all_refused(Store::over(store().into_words(), [0; SCRATCH - 1]), Refusal::ShortScratch);
    all_refused(Store::over(vec![0; 0], vec![0; 0]), Refusal::ShortScratch);
}

// ---- owned and lent

/// The same random calls on a store of its own, on a lent one and on the slices themselves.
#[test]
fn owned_lent_and_plain_calls_agree() {
    let mut random = Random::new(0x5eed_2001);
    let mut own = store();
    let (mut words, mut scratch) = (vec![u32::MAX; LIMITS.words()], [0; SCRATCH]);
    let mut lent: LentStore =
        Store::open_in(&mut words[..], &mut scratch[..], LIMITS, Bounds::default()).expect("good limits");
    let (mut plain, mut plain_scratch) = (own.words().to_vec(), [0; SCRATCH]);
    for _ in 0..4_000 {
        let label = format!("{:02}", random.below(90));
        let (serial, length, mut room) = (calls::pad(label.as_bytes()), label.len(), [0; 256]);
        let (day, code) = (random.below(300) as u32, 1 + random.below(9_999) as u32);
        let number = match random.below(7) {
            0..=2 => {
                assert_eq!(own.enter(&label), lent.enter(&label));
                calls::enter(&mut plain, &mut plain_scratch, &serial, length).number
            }
            3 | 4 => {
                assert_eq!(own.file(&label, day, code), lent.file(&label, day, code));
                calls::file(&mut plain, &mut plain_scratch, &serial, length, day, code).number
            }
            5 => {
                let (listing, number) = (own.show(&label), lent.show(&label).err().map_or(0, Refusal::number));
                let answer = calls::show(&plain, &mut plain_scratch, &serial, length, &mut room);
                assert_eq!(listing.map_or(0, |listing| listing.faults.len()), answer.faults as usize);
                assert_eq!(number, answer.number);
                answer.number
            }
            _ => {
                assert_eq!(own.withdraw(&label), lent.withdraw(&label));
                calls::withdraw(&mut plain, &mut plain_scratch, &serial, length, &mut room).number
            }
        };
        assert_eq!((own.words(), lent.words()), (&plain[..], &plain[..]), "after {number}");
        assert_eq!((own.check(), lent.check()), (Ok(()), Ok(())));
    }
    assert_eq!(words, plain);
}

/// The cards of a store are those of a list that is kept beside it.
#[test]
fn histories_are_those_of_the_second_program() {
    let mut store = store();
    for k in 0..200 {
        let card = k * 7 % 61;
        let _ = store.enter(format!("TG-{card:06}"));
        let _ = store.file(format!("TG-{:06}", k * 5 % 61), 1 + k * 37 % 365, 1 + k);
        if k % 9 == 0 {
            let _ = store.withdraw(format!("TG-{:06}", k * 11 % 61));
        }
    }
    let lists = lists_of(store.words());
    assert!(lists.cards_held() > 40 && lists.faults_held() > 60, "a store in use");
    for card in lists.cards() {
        let wanted: Vec<Fault> =
            card.listing().iter().map(|entry| Fault { day: entry.day, code: entry.code }).collect();
        assert_eq!(store.show(card.serial.bytes()).map(|listing| listing.faults), Ok(wanted));
    }
}

#[test]
fn words_are_kept_and_taken_up_again() {
    let mut store = store();
    store.enter("007").expect("room");
    store.file("007", 100, 12).expect("held");
    let file: Vec<u8> = store.into_words().iter().flat_map(|word| word.to_le_bytes()).collect();

    let words: Vec<u32> = file.chunks(4).map(|four| u32::from_le_bytes(four.try_into().expect("four"))).collect();
    let mut again = Store::over(words, vec![0; SCRATCH]);
    assert_eq!(again.check(), Ok(()));
    assert_eq!(again.show("007").expect("held").faults, faults(&[(100, 12)]));
}

#[test]
fn stores_are_kept_and_taken_up_again() {
    let mut store = store();
    store.enter("007").expect("room");
    store.file("007", 100, 12).expect("held");
    let file = store.to_bytes();

    let mut again = Store::from_bytes(&file).expect("whole words");
    assert_eq!(again, store);
    assert_eq!(again.check(), Ok(()));
    assert_eq!(again.show("007").expect("held").faults, faults(&[(100, 12)]));
}

/// The files that the second program's desk makes and leaves, fresh and after each job.
#[test]
fn files_are_those_of_desk() {
    let limits = lists::Limits { cards: 64, faults: 128 };
    let mut file = desk::fresh(limits, rules::Bounds { upper: 3, lower: 1 }).expect("good limits");
    let mut store = Store::with_bounds(LIMITS, Bounds { upper: 3, lower: 1 }).expect("good limits");
    assert_eq!(store.to_bytes(), file);
    for day in 1..=20 {
        let lines = |card: u32| format!("E CARD-{card}\nF CARD-{card} {} {card}\nW CARD-{}\n", 256 * day, card / 3);
        let text: String = (3 * day..4 * day + 5).map(lines).collect();
        let served = desk::served(&file, text.as_bytes());
        assert_eq!(served.number, 0);
        store = Store::from_bytes(store.to_bytes()).expect("whole words");
        store.job(&text, &mut Tally::default()).expect("a good job");
        assert_eq!(store.to_bytes(), served.file, "day {day}");
        assert_eq!(Store::from_bytes(&served.file).as_ref(), Ok(&store), "day {day}");
        file = served.file;
    }
    assert!(store.held().expect("a sound store").cards > 20, "a store in use");
}

/// Four bytes a word, the lowest first; any words are taken, whole ones only.
#[test]
fn bytes_are_whole_words() {
    let four_words = [1, 2, 3, 4, 0, 0, 0, 0, 255, 255, 255, 255, 0, 0, 0, 128];
    let store = Store::from_bytes(four_words).expect("whole words");
    assert_eq!(store.words(), [0x0403_0201, 0, u32::MAX, 1 << 31]);
    assert_eq!(store.to_bytes(), four_words);
    assert_eq!(store.limits(), Err(Refusal::NotSound));
    let file = self::store().to_bytes();
    for length in (0..40).chain(file.len() - 40..=file.len()) {
        let taken = Store::from_bytes(&file[..length]);
        assert_eq!(taken.map(|store| store.words().len()).ok(), (length % 4 == 0).then_some(length / 4), "{length}");
        let sound = Store::from_bytes(&file[..length]).and_then(|mut store| store.check());
        assert_eq!(sound, if length == file.len() { Ok(()) } else { Err(Refusal::NotSound) }, "{length} bytes");
    }
}

#[test]
fn words_that_are_only_read_can_be_shown() {
    let mut store = store();
    store.enter("007").expect("room");
    let words: &[u32] = store.words();
    let mut reading = Store::over(words, [0; SCRATCH]);
    assert_eq!(reading.check(), Ok(()));
    assert_eq!(reading.show("007").map(|listing| listing.counts.comparisons), Ok(1));
}

#[test]
fn stores_of_format_1_are_served() {
    let mut words = store().into_words();
    (words[0], words[14]) = (1, 0);
    let mut first = Store::over(words, vec![0; SCRATCH]);
    first.enter("007").expect("room");
    assert_eq!((first.words()[0], first.words()[14]), (1, 0));
    assert_eq!(first.bounds(), Ok(Bounds { upper: 4, lower: 2 }));
    assert_eq!(told(first.words()), second_told(first.words()));
}

// ---- jobs

/// The answers of a job by the second program, with output enough; and the words and the tally after it.
fn second_job(words: &[u32], text: &[u8], tally: Tally) -> (String, Vec<u32>, Tally) {
    let Tally { entries, withdrawals, filings, splits, contractions, comparisons } = tally;
    let mut counted = job::Tally { entries, withdrawals, filings, splits, contractions, comparisons };
    let (mut words, mut out) = (words.to_vec(), vec![0; 8_000_000]);
    let done = job::run(&mut words, &mut [0; SCRATCH], text, &mut out, &mut counted);
    assert_eq!(done.number, 0);
    let job::Tally { entries, withdrawals, filings, splits, contractions, comparisons } = counted;
    let tally = Tally { entries, withdrawals, filings, splits, contractions, comparisons };
    (String::from_utf8(out[..done.bytes as usize].to_vec()).expect("letters"), words, tally)
}

fn same_job(store: &mut Store, text: &[u8]) -> String {
    let mut tally = Tally { comparisons: u64::MAX - 40, ..Tally::default() };
    let (answers, words, counted) = second_job(store.words(), text, tally);
    assert_eq!(store.job(text, &mut tally).as_deref(), Ok(&answers[..]));
    assert_eq!(store.words(), words);
    assert_eq!(tally, counted);
    answers
}

#[test]
fn the_worked_job() {
    let mut store = Store::new(Limits { cards: 256, faults: 512 }).expect("good limits");
    let text = "E 7\nE 007\nF 007 100 12\nS 7\nS 007\nE 7\nW 007\nS 007\nF 7 0 5\n";
    let answers = "0 0 0 0\n0 1 0 0\n0 2 0 1\n0 1 0 0\n0 2 0 1 100:12\n6 1 0 0\n0 2 0 1 100:12\n7 1 0 0\n5 0 0 0\n";
    let mut tally = Tally::default();
    assert_eq!(store.job(text, &mut tally).as_deref(), Ok(answers));
    let counted = Tally { entries: 2, withdrawals: 1, filings: 1, comparisons: 10, ..Tally::default() };
    assert_eq!(tally, counted);
}

#[test]
fn jobs_of_every_shape() {
    let mut store = store();
    for text in ["", "\n", "\n\n", "E 7", "E 7\n", "E 7\nS 7", "F 7 1 1\n\nS 7\nW 7\nW 7", "e 7\r\n\tE 7\n"] {
        same_job(&mut store, text.as_bytes());
    }
    let enters: String = (0..70).map(|card| format!("E {card}\n")).collect();
    let rest: String = (0..70).map(|card| format!("F {card} 3 {card}\nF 1 2 3\nS 1\nW {card}\n")).collect();
    same_job(&mut store, enters.as_bytes());
    same_job(&mut store, rest.as_bytes());
}

/// Answers that no one output holds: each line is answered all the same, and counted once.
#[test]
fn jobs_whose_answers_pass_any_output() {
    let mut store = Store::new(Limits { cards: 4, faults: 2_048 }).expect("good limits");
    store.enter("7").expect("room");
    for k in 0..2_048 {
        store.file("7", 65_535 - k, 9_999 - k).expect("room");
    }
    // 0 1 0 2048 and the pairs: the longest answer but for digits that only a longer chain or a split brings
    let longest = "0 1 0 2048".len() + 11 * 2_048 + 1;
    assert!(longest < LONGEST_ANSWER);
    let answers = same_job(&mut store, "S 7\n".repeat(150).as_bytes());
    assert_eq!(answers.len(), 150 * longest);
    same_job(&mut store, b"E 8\nS 7\nS 9\nS 7\nE 8\nF 8 1 1\nW 7\nF 8 1 1\nE 7\nS 8\nx");
}

#[test]
fn jobs_that_are_too_long() {
    let mut store = store();
    let mut tally = Tally::default();
    let most = "\n".repeat(LONGEST_JOB);
    let answers = store.job(&most, &mut tally).expect("just as long as a job may be");
    assert_eq!(answers, "12 0 0 0\n".repeat(LONGEST_JOB));
    assert_eq!(store.job(most + "\n", &mut tally), Err(Refusal::LongText));
    assert_eq!(tally, Tally::default());
}

// ---- reports

/// The two stores of docs/REPORT.md.
fn two_readers() -> [Store; 2] {
    let [mut here, mut there] = [store(), Store::new(Limits { cards: 8, faults: 8 }).expect("good limits")];
    let mut tally = Tally::default();
    here.job("E 7\nE 07\nE 007\nF 7 100 12\nF 7 130 12\nF 007 90 40", &mut tally).expect("a good job");
    there.job("E 7\nF 7 110 12\nE A-1\nE B-22", &mut tally).expect("a good job");
    [here, there]
}

#[test]
fn a_report_over_two_readers() {
    let [here, there] = two_readers();
    assert_eq!(report(&[&here, &there]).as_deref(), Ok("12 3 2 100 130\n40 1 1 90 90\n6\n4\n666 4\n"));
    assert_eq!(report(&[here.words(), there.words()]), report(&[here, there]));
}

#[test]
fn reports_are_over_one_to_eight_stores() {
    let [here, there] = two_readers();
    assert_eq!(report::<Store>(&[]), Err(Refusal::BadStores));
    assert_eq!(report(&[&here; 9]), Err(Refusal::BadStores));
    for count in 1..=8 {
        let stores: Vec<&Store> = [&here, &there].into_iter().cycle().take(count).collect();
        let lists: Vec<lists::Store> = stores.iter().map(|store| lists_of(store.words())).collect();
        assert_eq!(report(&stores), Ok(second_report::text(&lists)), "{count} stores");
    }
}

/// A store with a fault of each of 2,048 codes, eight times with other codes: a text of some 300,000 bytes.
#[test]
fn the_report_over_eight_full_stores() {
    let filled = |first: u32| {
        let limits = lists::Limits { cards: 1_024, faults: 2_048 };
        let mut lists = lists::Store::fresh(limits, rules::Bounds::USUAL);
        let serial = reference::serial::Serial::new(b"7").expect("a serial");
        let bucket = lists.home(&serial);
        lists.place(bucket, serial);
        for k in 0..2_048 {
            lists.file(bucket, 0, lists::Entry { day: 60_000 + k, code: 1 + (first + k) % 9_999 });
        }
        lists
    };
    let lists: Vec<lists::Store> = (0..8).map(|k| filled(1_250 * k)).collect();
    let words: Vec<Vec<u32>> = lists.iter().map(layout::encode).collect();
    let text = report(&words).expect("sound stores");
    assert_eq!(text, second_report::text(&lists));
    assert_eq!(text.lines().count(), 9_999 + 3);
}

// ---- threads

#[test]
fn stores_go_to_threads() {
    fn goes<T: Send + Sync>() {}
    goes::<Store>();
    goes::<LentStore>();

    let filled = |first: usize| {
        let mut store = store();
        for card in first..first + 60 {
            store.enter(format!("{card}")).expect("room");
        }
        store.into_words()
    };
    let threads: Vec<_> = (0..4).map(|k| thread::spawn(move || filled(100 * k))).collect();
    for (k, thread) in threads.into_iter().enumerate() {
        assert_eq!(thread.join().expect("a filled store"), filled(100 * k));
    }
}
