//! Serials by where they differ.
use reference::random::Random;
use reference::rules;
use std::collections::BTreeSet;

/// Ten bytes that serials share.
const MAKER: &str = "MAKER-2026";

/// The buckets of a full store. Where chains are long, all cards stand in the first of them, one in so many.
const BUCKETS: u32 = 256;
const LONG: u32 = 16;

/// What a serial has for itself are so many bytes, from the least to the most; `maker` says where the ten bytes stand that all share.
pub struct Kind {
    least: u32,
    most: u32,
    maker: Maker,
}

enum Maker {
    First,
    Last,
    Nowhere,
}

pub const KINDS: [(&str, Kind); 6] = [
    ("maker12", Kind { least: 2, most: 2, maker: Maker::First }),
    ("maker14", Kind { least: 4, most: 4, maker: Maker::First }),
    ("maker16", Kind { least: 6, most: 6, maker: Maker::First }),
    ("mixed", Kind { least: 6, most: 12, maker: Maker::Nowhere }),
    ("short", Kind { least: 4, most: 4, maker: Maker::Nowhere }),
    ("ends", Kind { least: 4, most: 4, maker: Maker::Last }),
];

impl Kind {
    /// Different serials, in no order: as many as asked for, or all that there are.
    pub fn serials(&self, random: &mut Random, count: usize, long: bool) -> Vec<String> {
        let all = DIGITS.len().pow(self.least);
        let mut known = BTreeSet::new();
        let mut serials = Vec::new();
        while serials.len() < count && known.len() < all {
            let serial = self.serial(random);
            if known.insert(serial.clone()) && (!long || in_few_buckets(&serial)) {
                serials.push(serial);
            }
        }
        serials
    }

    fn serial(&self, random: &mut Random) -> String {
        let length = self.least as usize + random.below((self.most - self.least + 1) as usize);
        let own: String = (0..length).map(|_| char::from(DIGITS[random.below(DIGITS.len())])).collect();
        match self.maker {
            Maker::First => format!("{MAKER}{own}"),
            Maker::Last => format!("{own}{MAKER}"),
            Maker::Nowhere => own,
        }
    }
}

const DIGITS: &[u8] = b"0123456789ABCDEFGHIJKLMNOPQRSTUVWXYZ";

fn in_few_buckets(serial: &str) -> bool {
    rules::code(serial.as_bytes()) % BUCKETS < BUCKETS / LONG
}
