//! Jobs on which the proved program `depot` is held to the second program, the same in each run: valid ones, malformed ones, and
//! jobs at each limit of document 01.
use crate::job;
use crate::random::Random;

const SEED: u64 = 1_980;

/// What jobs of a kind are called, how many there are, and how one is made.
type Kind = (&'static str, usize, fn(&mut Random, usize) -> Vec<u8>);

const KINDS: [Kind; 17] = [
    ("valid", 30, valid),
    ("late", 20, late),
    ("growth", 30, growth),
    ("churn", 20, churn),
    ("faults", 10, faults),
    ("malformed", 35, malformed),
    ("noise", 25, noise),
    ("returns", 10, returns),
    ("lines", 12, lines),
    ("digits", 20, digits),
    ("limits", 20, limits),
    ("brim", 25, brim),
    ("histories", 20, histories),
    ("sizes", 12, sizes),
    ("ends", 12, ends),
    ("mixed", 20, mixed),
    ("alike", 21, alike),
];

pub struct Job {
    pub name: String,
    pub input: Vec<u8>,
    /// What `depot` must write for it.
    pub output: Vec<u8>,
}

pub fn all() -> Vec<Job> {
    let mut random = Random::new(SEED);
    let mut jobs = Vec::new();
    for (kind, count, made) in KINDS {
        for number in 0..count {
            let input = made(&mut random, number);
            let output = job::depot(&input);
            jobs.push(Job { name: format!("{kind}-{number:02}"), input, output });
        }
    }
    jobs
}

/// Lines with their LF, as many as fit a job.
fn joined(lines: impl IntoIterator<Item = impl AsRef<[u8]>>) -> Vec<u8> {
    let mut text = Vec::new();
    for line in lines {
        if text.len() + line.as_ref().len() < job::LONGEST_JOB {
            text.extend_from_slice(line.as_ref());
            text.push(b'\n');
        }
    }
    text
}

/// Any day, or one of five, so that a card has slips of one day, and slips that come late.
fn day(random: &mut Random) -> usize {
    match random.below(2) {
        0 => 1 + random.below(65_535),
        _ => 20_001 + random.below(5),
    }
}

/// A well-formed line on one of so many serials. Some serials differ only in leading zeros.
fn command(random: &mut Random, serials: usize) -> String {
    let number = random.below(serials);
    let serial = match random.below(4) {
        0 => format!("{number}"),
        1 => format!("{number:03}"),
        2 => format!("A-{number}"),
        _ => format!("CARD-{number:08X}"),
    };
    match random.below(10) {
        0..=3 => format!("E {serial}"),
        4..=6 => format!("F {serial} {} {}", day(random), 1 + random.below(9_999)),
        7 | 8 => format!("S {serial}"),
        _ => format!("W {serial}"),
    }
}

fn valid(random: &mut Random, number: usize) -> Vec<u8> {
    let serials = [2, 5, 20, 100][number % 4];
    let count = 20 + random.below(400);
    joined((0..count).map(|_| command(random, serials)))
}

/// Slips on one to four cards, many of one day and many late, which are shown, and withdrawn and entered again, on the way.
fn late(random: &mut Random, number: usize) -> Vec<u8> {
    let cards = 1 + number % 4;
    let enters = (0..cards).map(|card| format!("E {card}")).collect::<Vec<_>>();
    let count = 200 + random.below(200);
    let rest = (0..count).map(|_| {
        let card = random.below(cards);
        match random.below(16) {
            0..=10 => format!("F {card} {} {}", day(random), 1 + random.below(9_999)),
            11..=14 => format!("S {card}"),
            _ => format!("W {card}\nE {card}"),
        }
    });
    joined(enters.into_iter().chain(rest))
}

fn shuffled<T>(random: &mut Random, mut things: Vec<T>) -> Vec<T> {
    for end in (1..things.len()).rev() {
        things.swap(end, random.below(end + 1));
    }
    things
}

/// Up to more cards than the store takes are entered, and most withdrawn in another order.
fn growth(random: &mut Random, number: usize) -> Vec<u8> {
    let cards = 40 + 8 * number + random.below(8);
    let serials: Vec<String> = (0..cards).map(|card| format!("{:X}", 7 * card + random.below(7))).collect();
    let enters = serials.iter().map(|serial| format!("E {serial}")).collect::<Vec<_>>();
    let kept = random.below(30);
    let withdraws = shuffled(random, serials).into_iter().skip(kept).map(|serial| format!("W {serial}"));
    joined(enters.into_iter().chain(withdraws))
}

/// The number of cards goes up and down about a load at which the table splits or contracts.
fn churn(random: &mut Random, number: usize) -> Vec<u8> {
    let around = 60 + 10 * number;
    let mut held: Vec<usize> = Vec::new();
    let count = around + 500;
    joined((0..count).map(|card| {
        let enters = held.len() < around || random.below(2) == 0;
        if enters {
            held.push(card);
            format!("E {card}")
        } else {
            let at = random.below(held.len());
            format!("W {}", held.swap_remove(at))
        }
    }))
}

/// More faults than the store takes, of nine days in no order, on few cards, and then some again after a withdrawal.
fn faults(random: &mut Random, number: usize) -> Vec<u8> {
    let cards = 1 + number;
    let enters = (0..cards).map(|card| format!("E {card}")).collect::<Vec<_>>();
    let filing = |_| format!("F {} {} {}", random.below(cards), 1 + random.below(9), 1 + random.below(9));
    let filings = (0..520).map(filing).collect::<Vec<_>>();
    let after = ["W 0", "F 1 2 2", "E 0", "F 0 3 3", "S 0"].map(String::from);
    joined(enters.into_iter().chain(filings).chain(after))
}

/// Lines that a careless reader takes for well formed, or refuses by another number.
pub const MALFORMED: [&str; 48] = [
    "",
    " ",
    "  ",
    "E",
    "E ",
    "E  7",
    "E 7 ",
    " E 7",
    "e 7",
    "EE 7",
    "X 7",
    "7",
    "E 7 7",
    "E\t7",
    "S 7 1 1",
    "S",
    "W ",
    "W a",
    "W 7_",
    "E -",
    "E --7",
    "E 7.",
    "E 1234567890ABCDEF",
    "E 1234567890ABCDEFG",
    "F",
    "F 7",
    "F 7 1",
    "F 7 1 1 1",
    "F 7 1 1 ",
    "F 7  1",
    "F 7 1 ",
    "F 7 0 5",
    "F 7 5 0",
    "F 7 65536 1",
    "F 7 1 10000",
    "F 7 -1 1",
    "F 7 +1 1",
    "F 7 1 1x",
    "F 7 0x1 1",
    "F a x 1",
    "F a 0 1",
    "F  1 1",
    "F  x 1",
    "F   ",
    "F 1234567890ABCDEFG 0 1",
    "F 1234567890ABCDEFG 1 x",
    "f 7 1 1",
    "E 7\rS 7",
];

fn malformed(random: &mut Random, _: usize) -> Vec<u8> {
    let count = 10 + random.below(200);
    joined((0..count).map(|_| match random.below(3) {
        0 => command(random, 8),
        _ => MALFORMED[random.below(MALFORMED.len())].to_string(),
    }))
}

/// Bytes of all kinds: NUL, high ones, spaces and LFs among them. In every second job they are mostly such as lines are made of.
fn noise(random: &mut Random, number: usize) -> Vec<u8> {
    const LIKELY: &[u8] = b"ESWF 0179-A\n\n \0\xff\r";
    let length = random.below(4_000);
    if number % 2 == 0 {
        return random.bytes(length);
    }
    (0..length).map(|_| LIKELY[random.below(LIKELY.len())]).collect()
}

/// A job from another kind of machine: CR before each LF, or before some.
fn returns(random: &mut Random, number: usize) -> Vec<u8> {
    joined((0..40).map(|_| {
        let end = if number == 0 || random.below(2) == 0 { "\r" } else { "" };
        format!("{}{end}", command(random, 6))
    }))
}

/// Lines of 62 to 67 bytes: 64 are read, 65 are not.
fn lines(random: &mut Random, _: usize) -> Vec<u8> {
    joined((0..60).map(|_| {
        let length = 62 + random.below(6);
        match random.below(4) {
            0 => format!("E {}", "7".repeat(length - 2)),
            1 => format!("F {} 1 1", "A".repeat(length - 6)),
            2 => format!("{:width$}", "E 7", width = length),
            _ => "S".repeat(length),
        }
    }))
}

/// Numbers of 8 to 11 digits, most of them zeros in front: nine are read, ten are not.
fn digits(random: &mut Random, _: usize) -> Vec<u8> {
    let lines = (0..60).map(|_| {
        let width = 8 + random.below(4);
        let other = 8 + random.below(3);
        let value = [0, 1, 65_535, 65_536, 99_999_999][random.below(5)];
        format!("F 7 {value:0width$} {:0other$}", random.below(10_001))
    });
    joined(["E 7".to_string()].into_iter().chain(lines).chain(["S 7".to_string()]))
}

/// Serials of 0 to 18 bytes, days and codes at both ends of their ranges.
fn limits(random: &mut Random, _: usize) -> Vec<u8> {
    const DAYS: [u32; 6] = [0, 1, 2, 65_534, 65_535, 65_536];
    const CODES: [u32; 6] = [0, 1, 2, 9_998, 9_999, 10_000];
    joined((0..120).map(|_| {
        let serial = &"0123456789ABCDEFGH"[..random.below(19)];
        match random.below(4) {
            0 => format!("E {serial}"),
            1 => format!("S {serial}"),
            _ => format!("F {serial} {} {}", DAYS[random.below(6)], CODES[random.below(6)]),
        }
    }))
}

/// Answers of eight and nine bytes up to 16,361 bytes and more, then two lines with answers of other lengths: answers that just fit
/// and answers that just do not meet each number of bytes that can be left. The last job fills the output and ends.
fn brim(random: &mut Random, number: usize) -> Vec<u8> {
    let bytes = (16_361 + number).min(16_384);
    let nines = bytes % 8;
    let eights = (bytes - 9 * nines) / 8;
    let answered = shuffled(random, [vec!["S X"; eights], vec![""; nines]].concat());
    let last = [["", "S X"], ["E X", "E X"], ["F X 1 1", "W X"], ["", ""]][random.below(4)];
    joined(answered.into_iter().chain(last.into_iter().filter(|_| number < 24)))
}

/// Long histories, shown until the output is full. From job to job their days rise, fall, change between two, and have no order.
fn histories(random: &mut Random, number: usize) -> Vec<u8> {
    let count = 50 + 20 * number;
    let filings = (0..count).map(|filed| {
        let day = match number % 4 {
            0 => 1 + 100 * filed,
            1 => 65_535 - 100 * filed,
            2 => 365 - filed % 2,
            _ => day(random),
        };
        format!("F 7 {day} {}", 1 + random.below(9_999))
    });
    let shows = (0..60).map(|turn| if turn % 9 == 8 { "W 7" } else { "S 7" }.to_string());
    joined(["E 7".to_string(), "E 8".to_string()].into_iter().chain(filings.collect::<Vec<_>>()).chain(shows))
}

/// Jobs of 16,383 bytes and more; the longest that is read has 16,384.
fn sizes(random: &mut Random, number: usize) -> Vec<u8> {
    let length = [16_383, 16_384, 16_385, 16_386, 20_000, 40_000][number % 6];
    let mut text = joined((0..100).map(|_| command(random, 10)));
    let filler: &[u8] = if number < 6 { b"F 7 000000001 000000001\n" } else { b"S 0123456789ABCDEF\n" };
    while text.len() < length {
        text.extend_from_slice(filler);
    }
    text.truncate(length);
    text
}

/// Short texts, and last lines without LF.
fn ends(random: &mut Random, number: usize) -> Vec<u8> {
    const SHORT: [&[u8]; 8] = [b"", b"\n", b"\n\n", b"E 7", b"E 7\n\n", b"\nE 7", b" ", b"\0"];
    match SHORT.get(number) {
        Some(text) => text.to_vec(),
        None => {
            let mut text = joined((0..30).map(|_| command(random, 4)));
            text.pop();
            text
        }
    }
}

/// Some of everything.
fn mixed(random: &mut Random, _: usize) -> Vec<u8> {
    joined((0..300).map(|_| match random.below(12) {
        0 => MALFORMED[random.below(MALFORMED.len())].as_bytes().to_vec(),
        1 => {
            let length = random.below(70);
            random.bytes(length)
        }
        2 => format!("{}\r", command(random, 30)).into_bytes(),
        _ => command(random, 30).into_bytes(),
    }))
}

/// Serials of one length and one code, so of one chain, that differ in two bytes at the least: `AZ` and `B9` count alike. Those with few
/// bytes of their own share ten before them or behind.
fn alike(random: &mut Random, number: usize) -> Vec<u8> {
    let pairs = 2 + number % 7;
    let (first, last) = match (pairs, number % 2) {
        (2 | 3, 0) => ("MAKER-2026", ""),
        (2 | 3, _) => ("", "MAKER-2026"),
        _ => ("", ""),
    };
    let count = 300 + random.below(300);
    joined((0..count).map(|_| {
        let own: String = (0..pairs).map(|_| ["AZ", "B9"][random.below(2)]).collect();
        let serial = format!("{first}{own}{last}");
        match random.below(10) {
            0..=4 => format!("E {serial}"),
            5 | 6 => format!("F {serial} {} {}", day(random), 1 + random.below(9_999)),
            7 | 8 => format!("S {serial}"),
            _ => format!("W {serial}"),
        }
    }))
}
