//! The serial code, the address rule and the load rules.

/// The address rule's answer where (maxp, p) is no state of a table.
pub const NO_ADDRESS: u32 = u32::MAX;

/// The fewest and the most buckets of a table.
pub const LEAST_BUCKETS: u32 = 16;
pub const MOST_BUCKETS: u32 = 256;

/// The serial code as a polynomial: each byte weighs 33 to the power of the number of bytes behind it.
/// The rule goes from the first byte to the last; this sum goes from the last to the first.
pub fn code(bytes: &[u8]) -> u32 {
    const MODULUS: u64 = 1 << 32;
    let mut weight = 1;
    let mut sum = 0;
    for &byte in bytes.iter().rev() {
        sum = (sum + weight * u64::from(byte)) % MODULUS;
        weight = weight * 33 % MODULUS;
    }
    sum as u32
}

/// How far a table has grown.
#[derive(Clone, Copy, Debug, PartialEq, Eq)]
pub struct State {
    pub maxp: u32,
    pub p: u32,
}

impl State {
    pub const FRESH: State = State { maxp: LEAST_BUCKETS, p: 0 };

    pub fn buckets(self) -> u32 {
        self.maxp + self.p
    }

    /// The state after one split.
    pub fn grown(self) -> State {
        let p = self.p + 1;
        if p == self.maxp {
            State { maxp: 2 * self.maxp, p: 0 }
        } else {
            State { p, ..self }
        }
    }

    /// The state after one contraction.
    pub fn shrunk(self) -> State {
        if self.p == 0 {
            let maxp = self.maxp / 2;
            State { maxp, p: maxp - 1 }
        } else {
            State { p: self.p - 1, ..self }
        }
    }
}

/// Every state of a table, from 16 buckets to 256: one for each number of buckets.
pub fn states() -> impl Iterator<Item = State> {
    let mut next = State::FRESH;
    (LEAST_BUCKETS..=MOST_BUCKETS).map(move |_| {
        let state = next;
        next = state.grown();
        state
    })
}

/// The address, found by replaying the growth of the table: a card starts in bucket code mod 16 and moves whenever a
/// split takes it. A pair that no growth from a fresh table reaches is no state.
pub fn address(code: u32, maxp: u32, p: u32) -> u32 {
    let wanted = State { maxp, p };
    let mut bucket = code % LEAST_BUCKETS;
    for state in states() {
        if state == wanted {
            return bucket;
        }
        bucket = bucket_after_split(code, bucket, state);
    }
    NO_ADDRESS
}

/// Where a card of this code and bucket stands after the split of bucket p in this state.
fn bucket_after_split(code: u32, bucket: u32, state: State) -> u32 {
    if bucket == state.p && moves(code, state) {
        state.buckets()
    } else {
        bucket
    }
}

/// Whether a split in this state takes a card of bucket p with this code to the new bucket.
pub fn moves(code: u32, state: State) -> bool {
    code % (2 * state.maxp) == state.maxp + state.p
}

/// The load that a store keeps to, in cards a bucket.
#[derive(Clone, Copy, Debug, PartialEq, Eq)]
pub struct Bounds {
    pub upper: u32,
    pub lower: u32,
}

impl Bounds {
    /// Those of format 1, and of every store that `depot` opens.
    pub const USUAL: Bounds = Bounds { upper: 4, lower: 2 };

    /// Every pair that a store may have: the upper bound is 2 to 10, the lower one at least 1 and at most half of it.
    pub fn all() -> impl Iterator<Item = Bounds> {
        (2..=10).flat_map(|upper| (1..=upper / 2).map(move |lower| Bounds { upper, lower }))
    }

    pub fn in_range(self) -> bool {
        Bounds::all().any(|known| known == self)
    }
}

/// Whether n cards are too many for the buckets of this state. The greatest table takes any number and never splits.
pub fn splits(n: usize, state: State, bounds: Bounds) -> bool {
    n > (bounds.upper * state.buckets()) as usize && state.buckets() < MOST_BUCKETS
}

/// Whether n cards are too few for the buckets of this state. The least table never contracts.
pub fn contracts(n: usize, state: State, bounds: Bounds) -> bool {
    n < (bounds.lower * state.buckets()) as usize && state.buckets() > LEAST_BUCKETS
}
