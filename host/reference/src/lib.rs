//! The card store of document 01, and what document 02 adds to it, written a second time. It is made from the text of the rules alone
//! and shares no line and, where there is a choice, no method with the proved crates: what both get right is unlikely to be one
//! error made twice.
//!
//! Here a store is lists: buckets of cards, each card with its faults, and two lists of free cells ([`lists`]). A call reads the
//! words into lists if they are sound ([`sound`]), works on the lists ([`operations`]) and writes all words anew ([`layout`]).
//! So no operation here follows or mends a chain of cells; it is the layout alone that knows of cells and of next words.
//!
//! A store in a file is its words as bytes ([`bytes`]); [`desk`] says what comes of files, and [`desk_files`] reads and writes them.

pub mod bounds;
pub mod bytes;
pub mod calls;
pub mod damages;
pub mod desk;
pub mod desk_files;
pub mod job;
pub mod jobs;
pub mod layout;
pub mod lists;
pub mod operations;
pub mod random;
pub mod report;
pub mod rules;
pub mod run_cases;
pub mod runs;
pub mod script;
pub mod serial;
pub mod sound;
