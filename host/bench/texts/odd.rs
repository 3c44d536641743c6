//! Jobs of lines that are well formed and of lines that are not, on few serials, so that cards are met again.
use crate::frame::Frame;
use reference::jobs::MALFORMED;
use reference::random::Random;

const SEED: u64 = 1_212;
const JOBS: usize = 24;
const LINES: usize = 250;

/// More lines that a careless reader gets wrong, beside those of the second program's jobs.
const MORE: [&str; 9] = [
    "E 7\r",
    "W 7\0",
    "E 7_",
    "W 1234567890ABCDEF",
    "F 7 1 1",
    "F 7 65535 9999",
    "F 7 000000001 000000001",
    "F 7 0000000001 1",
    "F 7 999999999 1",
];

pub fn frames() -> Vec<Frame> {
    let mut random = Random::new(SEED);
    let jobs = (0..JOBS).map(|number| Frame::Job(job(&mut random, number)));
    [Frame::Open].into_iter().chain(jobs).collect()
}

/// Three jobs that enter much, three that withdraw much, and so on. Some end without LF.
fn job(random: &mut Random, number: usize) -> Vec<u8> {
    let enters = if number % 6 < 3 { 8 } else { 1 };
    let mut text = (0..LINES).map(|_| line(random, enters)).collect::<Vec<_>>().join(&b'\n');
    if random.below(2) == 0 {
        text.push(b'\n');
    }
    text
}

/// Of sixteen lines two are odd, and as many enter a card as asked.
fn line(random: &mut Random, enters: usize) -> Vec<u8> {
    let serial = format!("{:03}", random.below(400));
    match random.below(16) {
        0 => odd(random).into(),
        1 => noise(random),
        kind if kind < 2 + enters => format!("E {serial}").into(),
        kind if kind < 11 => format!("W {serial}").into(),
        kind if kind < 13 => format!("S {serial}").into(),
        _ => format!("F {serial} {} {}", random.below(66_000), random.below(10_100)).into(),
    }
}

fn odd(random: &mut Random) -> &'static str {
    let all = MALFORMED.len() + MORE.len();
    MALFORMED.iter().chain(&MORE).nth(random.below(all)).expect("the place is below the number of lines")
}

/// Up to 70 bytes: a line may have 64.
fn noise(random: &mut Random) -> Vec<u8> {
    const BYTES: &[u8] = b"ESWF 0179-Az\t\r\0\xff";
    let length = random.below(71);
    (0..length).map(|_| BYTES[random.below(BYTES.len())]).collect()
}
