//! The store as Rust's own `HashMap`, keyed by the bytes of a serial: the same jobs, answers, limits and refusals, but that it knows
//! no buckets, so comparisons and scanned are 0 in its answers, and no words, so there is no soundness to test.
mod job;
mod line;
mod store;

use frames::{Done, Program};
use std::process;
use store::Store;

struct Hashed(Store);

impl Program for Hashed {
    fn open(&mut self) {
        self.0.open();
    }

    fn job(&mut self, text: &[u8], out: &mut Vec<u8>) -> Done {
        job::run(&mut self.0, text, out)
    }

    fn tally(&self) -> [u64; 6] {
        let [entries, withdrawals, filings] = self.0.tally;
        [entries, withdrawals, filings, 0, 0, 0]
    }
}

fn main() {
    if let Err(why) = frames::run(&mut Hashed(Store::default())) {
        eprintln!("bench_hashmap: {why}");
        process::exit(2);
    }
}
