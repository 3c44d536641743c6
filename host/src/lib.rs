//! A store of spare circuit cards: each card under the exact bytes of its serial, so that `7`, `07` and `007` are three
//! cards, and with each card the faults filed against it.
//!
//! The store is a proved library, `libcard_store.a`; this crate is a safe interface over it.
//!
//! ```
//! use card_store::{Fault, Limits, Refusal, Store};
//!
//! let mut store = Store::new(Limits { cards: 64, faults: 128 })?;
//! store.enter("7")?;
//! store.enter("07")?;
//! store.enter("007")?;
//! store.file("007", 100, 12)?;
//!
//! assert_eq!(store.show("007")?.faults, [Fault { day: 100, code: 12 }]);
//! assert_eq!(store.show("7")?.faults, []);
//! assert_eq!(store.enter("7"), Err(Refusal::AlreadyHeld));
//! # Ok::<(), Refusal>(())
//! ```
//!
//! - [`Store`]: a store with its words and scratch, owned or lent. Its methods give what was asked for, or a [`Refusal`].
//! - [`report()`]: faults by code over up to eight stores.
//! - [`calls`]: the same on slices, with each number of an answer and without allocation.
//! - [`code`] and [`address`]: the serial code and the address rule of the table.
//!
//! What every call gives and leaves is stated in `docs/RULES.md`, and the library is proved to keep to it for every input,
//! damaged words and bad serials included. `docs/RUST.md` is the page to start with. This crate itself is not proved: all
//! of its `unsafe` code is in one file, `host/src/exported.rs`.
#![deny(missing_docs, unsafe_code)]

mod answers;
pub mod calls;
#[allow(unsafe_code)]
mod exported;
mod header;
mod refusal;
mod report;
mod sizes;
mod store;
mod terms;

pub use answers::{Counts, Fault, Listing};
pub use exported::{address, code, Tally};
pub use refusal::Refusal;
pub use report::report;
pub use sizes::{
    store_words, LONGEST_ANSWER, LONGEST_JOB, LONGEST_REPORT, MOST_CARDS, MOST_FAULTS, MOST_STORES, MOST_WORDS,
    NO_ADDRESS, SCRATCH, SERIAL,
};
pub use store::{LentStore, Store};
pub use terms::{Bounds, Held, Limits};

/// The programs of docs/RUST.md, run with the examples of this documentation.
#[cfg(doctest)]
#[doc = include_str!("../../docs/RUST.md")]
struct RustPage;
