//! The script of reports on which the proved program `list_runs` is held to the second program, the same in each run: cases for each
//! rule of the report, and runs made at random. [`crate::runs`] plays it.
use crate::random::Random;
use crate::report;
use crate::rules::Bounds;
use crate::runs::Desk;

const SEED: u64 = 1_981;
const SEED_OF_BOUNDS: u64 = 1_982;

/// The largest store, and where one stands as the eighth of a run.
const LARGEST: usize = 15_648;
const EIGHTH: usize = 7 * LARGEST;

pub fn script() -> String {
    let mut script = Script { text: String::new(), desk: Desk::new() };
    script.lines("B 400; T 1000; V 1 1");
    counts_of_stores(&mut script);
    lengths(&mut script);
    lengths_of_0(&mut script);
    damages(&mut script);
    contents(&mut script);
    withdrawals(&mut script);
    outputs(&mut script);
    scratches(&mut script);
    orders(&mut script);
    growth(&mut script);
    full_stores(&mut script);
    at_random(&mut script);
    bounds(&mut script);
    bounds_at_random(&mut script);
    script.text
}

/// The script so far, played along, so that what a report needs is known.
struct Script {
    text: String,
    desk: Desk,
}

impl Script {
    fn line(&mut self, line: &str) {
        self.desk.told(line);
        self.text += line;
        self.text.push('\n');
    }

    /// Lines parted by semicolons.
    fn lines(&mut self, lines: &str) {
        lines.split("; ").for_each(|line| self.line(line));
    }

    /// The list has these lengths.
    fn list(&mut self, lengths: &[u32]) {
        self.line(&format!("M {}", lengths.len()));
        for (at, length) in lengths.iter().enumerate() {
            self.line(&format!("L {at} {length}"));
        }
    }

    /// A word of the run is set.
    fn put(&mut self, at: usize, value: u32) {
        self.line(&format!("P {at} 1 1 {value} 0"));
    }

    /// The store that joined last is one of format 1 from here on.
    fn format_1(&mut self) {
        let start = self.starts().pop().expect("a store");
        self.put(start, 1);
        self.put(start + 14, 0);
    }

    /// The bytes that the report takes; 0 where the run is not sound.
    fn need(&self) -> usize {
        report::stores(self.desk.run(), self.desk.lengths()).map_or(0, |stores| report::text(&stores).len())
    }

    /// Reports with an output that is a byte short, that fits, and that has bytes left.
    fn around_need(&mut self) {
        let need = self.need();
        for size in [need - 1, need, need + 7] {
            self.lines(&format!("T {size}; R"));
        }
    }

    /// Where each store begins, as the list has it.
    fn starts(&self) -> Vec<usize> {
        let lengths = self.desk.lengths().iter().map(|&length| length as usize);
        lengths.scan(0, |sum, length| Some(std::mem::replace(sum, *sum + length))).collect()
    }
}

fn counts_of_stores(script: &mut Script) {
    script.line("# no store, with and without words; a list of lengths of 0");
    script.lines("N; R; Z 5; R; N; M 1; R; M 8; R; M 9; R; N; O 2 2 4 2; M 0; R");
    script.line("# one store to nine");
    script.line("N");
    for k in 1..=9 {
        script.lines(&format!("O {k} {k} 4 2; e {k} {k} 1; f {k} {k} 1 {} 1 {k} 1; R", 100 * k));
    }
    script.line("# nine lengths, whatever they hold; then eight for the nine stores");
    script.lines("L 8 0; R; L 0 0; R; L 0 4294967295; R; N; M 9; L 0 5; R; N; O 1 1 4 2; M 9; R; M 16; R");
    script.line("N");
    (1..=9).for_each(|k| script.line(&format!("O {k} 1 4 2")));
    script.lines("M 8; R; Z 2652; R; L 7 372; R");
}

fn lengths(script: &mut Script) {
    script.line("# lengths that fall short of the run, and that pass it");
    script.lines("N; O 1 1 4 2; E 7; F 7 9 8; O 2 2 4 2; E 7; O 3 3 4 2; E 7; F 7 7 8; R");
    for (at, length) in [(0, 300), (1, 312), (2, 324)] {
        script.lines(&format!("L {at} {}; R; L {at} {}; R; L {at} {length}", length - 1, length + 1));
    }
    script.lines("M 2; R; M 3; R; L 2 324; M 4; R; L 3 1; R; L 3 300; R; M 3; R");
    script.line("# lengths that agree with the run only after wrapping");
    for lengths in [
        &[300 + (1 << 31), 312 + (1 << 31), 324][..],
        &[u32::MAX, 613, 324],
        &[u32::MAX, u32::MAX, 938],
        &[300, 643, u32::MAX - 6],
        &[300, 312, u32::MAX, 325],
        &[300, 312, 324, 1 << 31, 1 << 31],
        &[117 + (1 << 29); 8],
    ] {
        assert_eq!(lengths.iter().fold(0, |sum: u32, &length| sum.wrapping_add(length)), 936);
        script.list(lengths);
        script.line("R");
    }
    script.line("# lengths that add up, at other borders");
    for lengths in [
        &[312, 300, 324][..],
        &[324, 312, 300],
        &[299, 313, 324],
        &[300, 311, 325],
        &[300, 636],
        &[612, 324],
        &[936],
        &[300, 312, 324],
    ] {
        assert_eq!(lengths.iter().sum::<u32>(), 936);
        script.list(lengths);
        script.line("R");
    }
    script.line("# a run that is a word short, and a word long");
    script.lines(
        "Z 935; R; L 2 323; R; Z 936; R; L 2 324; R; Z 937; R; L 2 325; R; L 2 324; M 4; L 3 1; R; M 3; Z 936; R",
    );
    script.line("# a single store, likewise");
    script.lines("N; O 4 4 4 2; Z 335; R; L 0 335; R; Z 337; R; L 0 337; R; Z 336; L 0 336; R; Z 0; R; L 0 0; R");
}

fn lengths_of_0(script: &mut Script) {
    script.line("# a length of 0 for a store, in each place");
    script.line("N");
    for k in 1..=8 {
        script.lines(&format!("O {k} 2 4 2; E {k}"));
    }
    for (at, length) in script.desk.lengths().to_vec().into_iter().enumerate() {
        script.lines(&format!("L {at} 0; R; L {at} {length}"));
    }
    script.line("R");
    script.line("# a length of 0 between the others, which add up without it");
    let run = script.desk.run().len();
    let lengths = script.desk.lengths().to_vec();
    script.lines(&format!("Z {}; L 7 0; R", run - lengths[7] as usize));
    for at in (0..7).rev() {
        script.lines(&format!("L {} {}; L {at} 0; R", at + 1, lengths[at]));
    }
}

/// Words of a store with two cards and three faults, and what damages them.
const DAMAGES: [(usize, u32); 12] = [
    (0, 1),
    (5, 3),
    (6, 2),
    (8, 0),
    (14, 1),
    (17, 48),
    (287, 1),
    (289, 17),
    (295, 1),
    (307, 0),
    (307, 65_536),
    (308, 10_000),
];

fn damages(script: &mut Script) {
    script.line("# a damaged store in each of eight places");
    script.line("N");
    for k in 1..=8 {
        script.lines(&format!("O 2 4 4 2; e 2 {k} 1; f 2 {k} 1 {k} 5 {k} 0; f 1 {k} 1 9 1 5 1"));
    }
    script.line("R");
    for (place, start) in script.starts().into_iter().enumerate() {
        for (word, value) in DAMAGES.into_iter().cycle().skip(3 * place).take(4) {
            let at = start + word;
            let whole = script.desk.run()[at];
            script.put(at, value);
            script.line("R");
            script.put(at, whole);
        }
    }
    script.line("R");
    script.line("# days and codes are read as they stand");
    let start = script.starts()[7];
    script.put(start + 307, 65_535);
    script.put(start + 308, 9_999);
    script.line("R");
}

fn contents(script: &mut Script) {
    script.line("# no cards; cards and no faults; one fault");
    script.lines("N; O 1 1 4 2; R; O 4 4 4 2; R; E 7; R; E 07; E 007; R; F 07 5 5; R");
    script.line("# eight stores with no cards, then a card in the last");
    script.line("N");
    (1..=8).for_each(|_| script.line("O 1 2 4 2"));
    script.lines("R; E 7; R; F 7 1 1; R; F 7 1 1; R; F 7 1 1; R");
    script.line("# a code twice on a card, on two cards, with another between");
    script.lines("N; O 4 16 4 2; E A; F A 40 12; F A 30 12; R; E B; F B 35 12; R; F B 1 13; F B 50 12; R");
    script.lines("F A 60 13; F A 20 12; R");
    script.line("# one serial in two stores, and in eight");
    script.lines("N; O 2 4 4 2; E 7; F 7 100 12; O 3 4 4 2; E 7; R; F 7 99 12; R; F 7 101 13; F 7 98 12; R");
    script.lines("E 07; F 07 1 12; R");
    (3..=8).for_each(|k| script.lines(&format!("O 1 1 4 2; E 7; F 7 {} 12", 100 * k)));
    script.line("R");
    script.line("# the lowest and the highest code, and their neighbours");
    script.lines("N; O 2 32 4 2; E 7; F 7 10 9999; R; F 7 20 1; R; F 7 30 9998; F 7 40 2; F 7 5 0; F 7 5 10000; R");
    script.lines("F 7 50 9; F 7 51 10; F 7 52 99; R; F 7 53 100; F 7 54 999; F 7 55 1000; R");
    script.line("# the lowest and the highest day, in both orders, on a card");
    script.lines("N; O 2 8 4 2; E 7; F 7 1 1; R; F 7 65535 1; R; F 7 65535 2; R; F 7 1 2; R");
    script.lines("F 7 300 1; F 7 300 2; R; F 7 0 3; F 7 65536 3; R");
    script.line("# and over two stores");
    script.lines("N; O 1 4 4 2; E 7; F 7 65535 1; F 7 1 2; F 7 9 3; O 1 4 4 2; E 7; F 7 1 1; F 7 65535 2; F 7 9 3; R");
    script.line("# whole part and remainder");
    script.lines("N; O 7 16 4 2; E 1; F 1 1 1; R; E 2; R; E 3; R; F 1 1 2; R; E 4; E 5; E 6; E 7; R");
    script.lines("F 7 1 1; F 7 1 1; F 7 1 1; F 7 1 1; F 7 1 1; R");
    script.lines("F 1 1 1; R; F 2 1 1; R; F 3 2 1; F 4 2 1; F 5 2 1; F 6 2 1; F 7 2 1; F 1 2 1; F 2 2 1; R");
    script.line("# refused calls leave nothing to count");
    script.lines("N; O 1 1 4 2; E 7; F 7 5 5; R; E 8; F 8 6 6; F 7 6 6; E 7; R");
}

fn withdrawals(script: &mut Script) {
    script.line("# cards withdrawn and entered again");
    script.lines("N; O 3 6 4 2; E 1; E 2; E 3; F 1 10 1; F 2 20 1; F 3 30 2; F 1 40 3; R; W 1; R; E 1; R");
    script.lines("F 1 25 2; R; W 3; W 2; R");
    script.lines("W 1; R; E 4; F 4 7 7; O 2 2 4 2; R");
}

fn outputs(script: &mut Script) {
    script.line("# outputs of every size up to a text and past it");
    script.lines("N; O 2 4 4 2; E 7; F 7 100 12; V 200 3");
    for size in 0..=script.need() + 3 {
        script.lines(&format!("T {size}; R"));
    }
    script.line("# outputs that hold zeros, ones, line feeds and digits before");
    for fill in ["0 0", "255 0", "10 0", "48 1", "7 255"] {
        script.line(&format!("V {fill}"));
        script.around_need();
    }
    script.line("# the shortest text, and a longer one over three stores");
    script.lines("V 1 1; N; O 1 1 4 2");
    script.around_need();
    script.line("T 0");
    script.line("R");
    script.lines("N; O 3 9 4 2; e 3 1 1; f 9 1 1 9 1 8 1; O 1 1 4 2; O 9 9 4 2; e 9 5 5; f 9 5 5 65530 1 9990 1");
    script.around_need();
    script.lines("T 0; R; T 300000; R; T 1000; R");
}

fn scratches(script: &mut Script) {
    script.line("# scratch of every size about the need, with other bytes before");
    script.lines("N; O 2 4 4 2; E 7; F 7 100 12; T 60");
    for (size, fill) in [
        (0, "1 1"),
        (1, "255 0"),
        (383, "1 1"),
        (384, "1 1"),
        (385, "1 1"),
        (383, "255 0"),
        (384, "255 0"),
        (385, "255 0"),
        (384, "0 0"),
        (1_000, "128 77"),
    ] {
        script.lines(&format!("B {size}; V {fill}; R"));
    }
    script.line("# and with each refusal");
    script.lines("V 255 0; B 385; T 10; R; L 0 0; R; M 0; R; B 383; R; B 400; V 1 1");
}

/// Each set of refusals that may apply at once: the first is given. No store, and more than eight, are 14; a byte too few, and no byte
/// at all, are 10.
fn orders(script: &mut Script) {
    script.line("# refusals that apply together: 11, 14, 3, 10");
    script.lines("N; O 1 1 4 2; E 7; F 7 8 9; O 2 1 4 2");
    let need = script.need();
    let (fits, too_short) = ([need], [need - 1, 0]);
    for applies in 0..16 {
        let scratch = if applies & 8 == 0 { 384 } else { 383 };
        let counts: &[usize] = if applies & 4 == 0 { &[2] } else { &[0, 9] };
        let format = if applies & 2 == 0 { 2 } else { 3 };
        let sizes: &[usize] = if applies & 1 == 0 { &fits } else { &too_short };
        script.line(&format!("B {scratch}"));
        script.put(0, format);
        for count in counts {
            script.list(&[300, 309]);
            script.line(&format!("M {count}"));
            sizes.iter().for_each(|size| script.lines(&format!("T {size}; R")));
        }
    }
    script.lines("B 400; T 1000");
}

fn growth(script: &mut Script) {
    script.line("# stores that grow and contract");
    script.lines("N; O 200 64 4 2; e 64 0 1; R; e 1 64 1; R; e 135 65 1; f 64 0 3 900 10 40 1; T 2000; R");
    script.lines(
        "w 60 0 3; R; w 70 1 1; R; w 140 60 1; R; e 90 300 7; f 20 300 7 65500 5 9990 1; R; w 1024 0 1; R; T 1000; R",
    );
    script.lines("N; O 100 8 4 2; e 100 0 1; f 8 0 1 1 1 1 0; w 80 0 1; R");
    script.lines("O 80 8 4 2; e 80 0 1; f 8 70 1 50 1 1 1; w 60 0 1; R");
}

fn full_stores(script: &mut Script) {
    script.line("# one card with all faults of a store: one code, then a code each");
    script.lines("N; O 1 2048 4 2; e 1 5 1; f 2049 5 0 1 32 77 0; T 300000");
    script.around_need();
    script.lines("P 299 2048 3 1 1");
    script.around_need();

    script.line("# a full store: its cards are entered, two faults for each are laid; no more is taken");
    script.lines(&format!("N; Z {EIGHTH}; O 1024 2048 4 2; e 1024 0 1"));
    script.put(EIGHTH + 6, 2_048);
    script.put(EIGHTH + 8, 0);
    let (cards, faults) = (EIGHTH + 288, EIGHTH + 288 + 9 * 1_024);
    for (at, count, stride, value, step) in [
        (cards + 6, 1_024, 9, 1, 1),
        (cards + 7, 1_024, 9, 1_025, 1),
        (cards + 8, 1_024, 9, 2, 0),
        (faults, 1_024, 3, 1_025, 1),
        (faults + 3 * 1_024, 1_024, 3, 0, 0),
        (faults + 1, 2_048, 3, 1, 32),
        (faults + 2, 2_048, 3, 9_999, u32::MAX - 3),
    ] {
        script.line(&format!("P {at} {count} {stride} {value} {step}"));
    }
    script.lines(&format!("E 7; F 0000 1 1; N; C {EIGHTH} {LARGEST}; T 300000; R"));
    script.around_need();

    script.line("# all codes over five full stores");
    (1..5).for_each(|_| script.line(&format!("C {EIGHTH} {LARGEST}")));
    let codes = |store: usize| LARGEST * store + 288 + 9 * 1_024 + 2;
    for store in 0..4 {
        script.line(&format!("P {} 2048 3 {} 1", codes(store), 2_048 * store + 1));
    }
    script.line(&format!("P {} 1807 3 8193 1", codes(4)));
    script.line("T 300000");
    script.line("R");
    script.around_need();
    script.line("# one code missing, then another");
    script.put(codes(2), 5_000);
    script.line("T 300000");
    script.line("R");
    script.put(codes(0), 2);
    script.line("R");

    script.line("# all codes over eight full stores");
    script.put(codes(0), 1);
    script.put(codes(2), 4_097);
    (5..8).for_each(|_| script.line(&format!("C {EIGHTH} {LARGEST}")));
    script.line("R");
    script.around_need();
    script.line("# a fault in the last word");
    let last = 8 * LARGEST - 1;
    let whole = script.desk.run()[last];
    script.put(last, 0);
    script.line("R");
    script.put(last, whole);
    script.line("# a word short, and a word long");
    script.lines(&format!("Z {last}; R; Z {}", 8 * LARGEST));
    script.put(last, whole);
    script.lines(&format!("Z {}; R; Z {}; R", 8 * LARGEST + 1, 8 * LARGEST));
    script.line("# one code for all faults of eight full stores, on one day but for the first and the last");
    for store in 0..8 {
        script.line(&format!("P {} 2048 3 9999 0", codes(store)));
        script.line(&format!("P {} 2048 3 40000 0", codes(store) - 1));
    }
    script.line("R");
    script.put(codes(0) - 1, 65_535);
    script.put(last - 1, 1);
    script.around_need();
    script.line("T 1000");
}

// ---- runs at random

fn at_random(script: &mut Script) {
    let mut random = Random::new(SEED);
    for number in 1..=100 {
        script.line(&format!("# at random, {number}"));
        script.line("N");
        for _ in 0..1 + random.below(8).min(random.below(8)) {
            one_store(script, &mut random);
        }
        sizes(script, &mut random);
        script.line("R");
        match random.below(4) {
            0 => damage(script, &mut random),
            1 => other_length(script, &mut random),
            2 => one_store(script, &mut random),
            _ => sizes(script, &mut random),
        }
        script.line("R");
    }
}

/// A store with few cards and few codes, so that cards share codes and stores share serials.
fn one_store(script: &mut Script, random: &mut Random) {
    let (cards, faults) = (1 + random.below(9), 1 + random.below(12));
    script.line(&format!("O {cards} {faults} 4 2"));
    filled(script, random, cards, faults);
}

/// Cards and faults of the store that joined last; some of its cards go again.
fn filled(script: &mut Script, random: &mut Random, cards: usize, faults: usize) {
    let (first, step) = (random.below(4), 1 + random.below(2));
    script.line(&format!("e {} {first} {step}", random.below(cards + 2)));
    let days = format!("{} {}", 1 + random.below(65_535), random.below(65_535));
    let low_code = [1, 1, 8, 95, 996, 9_990][random.below(6)] + random.below(6);
    script.line(&format!(
        "f {} {first} {} {days} {low_code} {}",
        random.below(faults + 2),
        random.below(3),
        random.below(3)
    ));
    if random.below(4) == 0 {
        script.line(&format!("w {} {first} 3", 1 + random.below(3)));
    }
}

fn sizes(script: &mut Script, random: &mut Random) {
    let need = script.need();
    let out = match random.below(6) {
        0 => need.saturating_sub(1),
        1 => random.below(need + 1),
        2 => need,
        3 => need + 1,
        _ => need + random.below(200),
    };
    let scratch = [383, 384, 385, 384 + random.below(600), 384, 390, 400, 500][random.below(8)];
    script.lines(&format!("B {scratch}; T {out}; V {} {}", random.below(256), random.below(256)));
}

/// A word of the run takes a bit more, or a number from elsewhere in the run.
fn damage(script: &mut Script, random: &mut Random) {
    let run = script.desk.run();
    let at = random.below(run.len());
    let value = match random.below(2) {
        0 => run[at] ^ 1 << random.below(32),
        _ => run[random.below(run.len())],
    };
    script.put(at, value);
}

fn other_length(script: &mut Script, random: &mut Random) {
    let lengths = script.desk.lengths().to_vec();
    let at = random.below(lengths.len());
    match random.below(4) {
        0 => script.line(&format!("L {at} {}", lengths[random.below(lengths.len())] ^ 1)),
        1 => script.line(&format!("L {at} {}", random.word())),
        2 => script.line(&format!("M {}", lengths.len() - 1)),
        _ => script.line(&format!("M {}", lengths.len() + 1)),
    }
}

// ---- stores of other bounds, and of format 1

/// Stores of 80 cards: those with an upper bound of 10 have 16 buckets, the others have grown.
const STORES: [(u32, u32); 5] = [(2, 1), (10, 5), (4, 2), (10, 1), (3, 1)];

fn bounds(script: &mut Script) {
    script.line("# stores of other bounds, and two of format 1 among them, of which one is older than its cards");
    script.lines("B 400; T 2000; V 1 1; N");
    for (k, (upper, lower)) in STORES.into_iter().enumerate() {
        script.lines(&format!("O 80 8 {upper} {lower}; e 80 {k} 1; f 8 {k} 3 {} 7 {} 1", 300 - k, 20 + k));
    }
    script.lines("O 80 8 4 2; e 80 5 1; f 8 5 3 1 9 25 2");
    script.format_1();
    script.line("R");
    script.line("O 80 8 4 2");
    script.format_1();
    script.lines("e 80 6 1; f 8 6 3 65530 1 26 3; R; w 70 0 1; R; e 9 700 3; R");
    other_words_of_bounds(script);
    script.line("# at 256 buckets, with fewer cards than the upper bound allows, and with more");
    script.lines("N; O 600 8 2 1; e 511 0 1; f 8 500 1 1 1 1 1; R; e 89 511 1; f 1 599 1 9 0 9 0; R");
    script.lines("w 340 0 1; R; w 4 340 1; R; w 1 344 1; R");
}

/// The words 0 and 14 that the third store, of bounds 4 and 2, and the sixth, of format 1, may and may not have.
fn other_words_of_bounds(script: &mut Script) {
    let starts = script.starts();
    script.line("# words 0 and 14 of a store of format 2 with 80 cards in 20 buckets");
    for (format, bounds) in [
        (2, 0),
        (2, 4),
        (2, 258),
        (2, 513),
        (2, 769),
        (2, 1_024),
        (2, 1_025),
        (2, 1_027),
        (2, 1_026 + (1 << 16)),
        (2, 1_026 + (1 << 31)),
        (2, 10 * 256 + 4),
        (2, 10 * 256 + 5),
        (2, 11 * 256 + 4),
        (2, u32::MAX),
        (0, 1_026),
        (1, 1_026),
        (1, 0),
        (3, 1_026),
        (2, 1_026),
    ] {
        script.put(starts[2], format);
        script.put(starts[2] + 14, bounds);
        script.line("R");
    }
    script.line("# and of one of format 1");
    for (format, bounds) in [(1, 1_026), (2, 0), (1, 1), (2, 1_026), (1, 0)] {
        script.put(starts[5], format);
        script.put(starts[5] + 14, bounds);
        script.line("R");
    }
}

fn bounds_at_random(script: &mut Script) {
    let mut random = Random::new(SEED_OF_BOUNDS);
    for number in 1..=24 {
        script.line(&format!("# bounds at random, {number}"));
        script.line("N");
        for _ in 0..1 + random.below(8).min(random.below(8)) {
            one_store_of_bounds(script, &mut random);
        }
        sizes(script, &mut random);
        script.line("R");
        match random.below(2) {
            0 => other_bounds(script, &mut random),
            _ => one_store_of_bounds(script, &mut random),
        }
        script.line("R");
    }
}

fn any_bounds(random: &mut Random) -> Bounds {
    let all: Vec<Bounds> = Bounds::all().collect();
    all[random.below(all.len())]
}

/// A store with up to 80 cards and any bounds, or of format 1.
fn one_store_of_bounds(script: &mut Script, random: &mut Random) {
    let (cards, faults) = (1 + random.below(80), 1 + random.below(12));
    if random.below(3) == 0 {
        script.line(&format!("O {cards} {faults} 4 2"));
        script.format_1();
    } else {
        let Bounds { upper, lower } = any_bounds(random);
        script.line(&format!("O {cards} {faults} {upper} {lower}"));
    }
    filled(script, random, cards, faults);
}

/// Word 14 of a store takes other bounds, which its load may fit or not.
fn other_bounds(script: &mut Script, random: &mut Random) {
    let starts = script.starts();
    let at = starts[random.below(starts.len())];
    let Bounds { upper, lower } = any_bounds(random);
    script.put(at + 14, 256 * upper + lower);
}
