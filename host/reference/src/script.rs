//! What `reference calls` prints: each line of a script with what came of it. Of a call that is the four numbers that it gave, and
//! checksums of all words of the store, of the room and of the scratch as the call left them. The proved program `store_calls` says what
//! the lines mean, and has to print the same.
use crate::calls;
use crate::operations::Answer;
use crate::serial::WIDTH;
use crate::sound;

pub fn report(script: &str) -> String {
    let mut desk = Desk { words: vec![u32::MAX; 15_648], store: 0, scratch: 0, room: 0 };
    script.lines().map(|line| format!("{line}{}\n", desk.told(line))).collect()
}

/// The words, and how many of them, of scratch and of the room are lent.
struct Desk {
    words: Vec<u32>,
    store: usize,
    scratch: usize,
    room: usize,
}

/// A call by the letter of its line; only File has a day and a code.
struct Call<'a> {
    letter: &'a str,
    serial: [u8; WIDTH],
    length: usize,
    day: u32,
    code: u32,
}

/// What a call left: its answer, and the checksums of words, room and scratch.
struct Left {
    answer: Answer,
    words: u32,
    room: u32,
    scratch: u32,
}

impl Desk {
    /// Does a line, and gives what is printed behind it.
    fn told(&mut self, line: &str) -> String {
        let fields: Vec<&str> = line.split(' ').collect();
        match fields[..] {
            ["O", cards, faults, upper, lower, length] => {
                self.open([cards, faults, upper, lower].map(number), number(length))
            }
            ["B", size] => {
                self.scratch = number(size) as usize;
                String::new()
            }
            ["R", size] => {
                self.room = number(size) as usize;
                String::new()
            }
            ["P", at, value] => {
                self.store()[number(at) as usize] = number(value);
                String::new()
            }
            ["V", at] => format!(": {}", self.store()[number(at) as usize]),
            ["K", bucket] => self.chain(number(bucket) as usize),
            ["A"] => self.bytes(),
            [letter @ ("E" | "S" | "W"), serial] => self.call(letter, serial, 0, 0),
            ["F", serial, day, code] => self.call("F", serial, number(day), number(code)),
            [letter @ ("e" | "f" | "s" | "w"), count, from, step] => {
                let every_64 = |made: u32, _| made % 64 == 0;
                self.many(&letter.to_uppercase(), [count, from, step].map(number), every_64)
            }
            [letter @ ("g" | "c"), count, from, step] => {
                let call = if letter == "g" { "E" } else { "W" };
                self.many(call, [count, from, step].map(number), |_, other_buckets| other_buckets)
            }
            _ => String::new(),
        }
    }

    fn store(&mut self) -> &mut [u32] {
        &mut self.words[..self.store]
    }

    fn buckets(&self) -> u32 {
        self.words[3] + self.words[4]
    }

    fn open(&mut self, [cards, faults, upper, lower]: [u32; 4], length: u32) -> String {
        self.store = length as usize;
        let answer = calls::open(self.store(), cards, faults, upper, lower);
        format!(": {answer} words {}", checksum(self.store()))
    }

    fn chain(&mut self, bucket: usize) -> String {
        let lists = sound::read(self.store()).expect("a sound store");
        let cards = lists.buckets.get(bucket).into_iter().flatten();
        let serials = cards.map(|card| format!(" {}", String::from_utf8_lossy(card.serial.bytes())));
        format!(":{}", serials.collect::<String>())
    }

    /// Scratch and room are filled anew before each call.
    fn ask(&mut self, call: &Call) -> Left {
        let mut scratch: Vec<u8> = (1..=251).cycle().take(self.scratch).collect();
        let mut room: Vec<u32> = (70_001..).take(self.room).collect();
        let (words, serial, length) = (self.store(), call.serial, call.length);
        let answer = match call.letter {
            "E" => calls::enter(words, &mut scratch, serial, length),
            "F" => calls::file(words, &mut scratch, serial, length, call.day, call.code),
            "S" => calls::show(words, &mut scratch, serial, length, &mut room),
            _ => calls::withdraw(words, &mut scratch, serial, length, &mut room),
        };
        let scratch: Vec<u32> = scratch.into_iter().map(u32::from).collect();
        Left { answer, words: checksum(words), room: checksum(&room), scratch: checksum(&scratch) }
    }

    fn call(&mut self, letter: &str, field: &str, day: u32, code: u32) -> String {
        let (serial, length) = sent(field);
        let left = self.ask(&Call { letter, serial, length, day, code });
        let Answer { number, comparisons, scanned, faults } = left.answer;
        let room = if matches!(letter, "S" | "W") { format!(" room {}", left.room) } else { String::new() };
        format!(": {number} {comparisons} {scanned} {faults} words {}{room} scratch {}", left.words, left.scratch)
    }

    /// Calls for numbered serials, of which there are 1,024. A line tells of the last call, and of those that `is_told` asks for by how
    /// many were made and whether the number of buckets is another after it.
    fn many(&mut self, letter: &str, [count, from, step]: [u32; 3], is_told: impl Fn(u32, bool) -> bool) -> String {
        let mut lines = String::new();
        let mut sum = 1;
        for made in 1..=count {
            let n = (from + (made - 1) * step) % 1_024;
            let (serial, length) = sent(&numbered(n));
            let buckets = self.buckets();
            let left = self.ask(&Call { letter, serial, length, day: made, code: n + 1 });
            let Answer { number, comparisons, scanned, faults } = left.answer;
            let all = [number, comparisons, scanned, faults, left.words, left.room, left.scratch];
            sum = all.into_iter().fold(sum, mix);
            if made == count || is_told(made, self.buckets() != buckets) {
                let held: String = self.words[3..7].iter().map(|word| format!(" {word}")).collect();
                lines += &format!("\n{made} calls:{held} sum {sum}");
            }
        }
        lines
    }

    /// Show for each byte as a serial, and for sixteen bytes with the greatest length.
    fn bytes(&mut self) -> String {
        let mut shown = |serial, length| self.ask(&Call { letter: "S", serial, length, day: 0, code: 0 }).answer.number;
        let numbers: String = (0..=255).map(|byte| shown(padded(&[byte]), 1).to_string()).collect();
        format!(": {numbers} {}", shown([b'7'; WIDTH], usize::MAX))
    }
}

// ---- serials

/// The sixteen bytes and the length that a field stands for: `_` is a zero byte, and what is behind a `|` is not counted.
fn sent(field: &str) -> ([u8; WIDTH], usize) {
    let length = field.find('|').unwrap_or(field.len());
    (padded(field.replace('|', "").replace('_', "\0").as_bytes()), length)
}

pub(crate) fn padded(bytes: &[u8]) -> [u8; WIDTH] {
    let mut serial = [0; WIDTH];
    serial.iter_mut().zip(bytes).for_each(|(to, from)| *to = *from);
    serial
}

/// Three pairs for the number's lowest bits, and two letters for the rest of it. `AZ` and `B9` have one code, so that each
/// eight serials have one. The letters of every second eight stand at the end of sixteen bytes.
fn numbered(n: u32) -> String {
    let pairs: String = (0..3).map(|bit| if n >> bit & 1 == 0 { "AZ" } else { "B9" }).collect();
    let rest = n / 8;
    let gap = if rest % 2 == 0 { "" } else { "--------" };
    let letter = |k: u32| char::from(b'A' + (k % 26) as u8);
    format!("{pairs}{gap}{}{}", letter(rest), letter(rest / 26 * 5))
}

// ---- numbers

pub(crate) fn number(field: &str) -> u32 {
    field.parse().expect("a number")
}

pub(crate) fn checksum(numbers: &[u32]) -> u32 {
    numbers.iter().copied().fold(1, mix)
}

/// A checksum with one number more: a polynomial modulo 2^32.
fn mix(sum: u32, x: u32) -> u32 {
    sum.wrapping_mul(16_777_619).wrapping_add(x)
}
