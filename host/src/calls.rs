//! The calls as the archive has them, on slices that the caller lends, with whole answers: for who wants each number.
//!
//! They are safe, take whatever they are given, and allocate nothing. A [`Store`](crate::Store) is over them.
//!
//! - **Numbers.** 0 is done; any other is the number of a [`Refusal`](crate::Refusal). Each function names those that it
//!   gives, in the order of its tests: the first that applies is given. Refused calls tell their comparisons too, and with
//!   10 the faults that did not fit.
//! - **Words.** As many as [`store_words`](crate::store_words) says. A refused call leaves all of them as they were.
//! - **Scratch.** [`SCRATCH`](crate::SCRATCH) bytes or more. With 11 none is touched; with any other number the first 384
//!   bytes are zero afterwards. Those behind are never touched.
//! - **Serial.** Sixteen bytes, the unused ones zero, and a length: [`pad`] makes the bytes of a label. Any length may be
//!   given; one that is not 1 to 16 is answered by 4.
//! - **Room and output.** Written from the front as far as the answer says; what is behind stays as it was. A room that
//!   is too short is not touched, nor is the output of a refused report. A job that is stopped by 10 has answered the lines
//!   before; the line that did not fit has no effect and is not counted.
//!
//! ```
//! use card_store::{calls, store_words, SCRATCH};
//!
//! let mut words = [0; store_words(8, 8)];
//! let mut scratch = [0; SCRATCH];
//! assert_eq!(calls::open(&mut words, 8, 8, 4, 2), 0);
//!
//! let serial = calls::pad(b"007");
//! let first = calls::enter(&mut words, &mut scratch, &serial, 3);
//! let again = calls::enter(&mut words, &mut scratch, &serial, 3);
//! assert_eq!((first.number, first.comparisons), (0, 0));
//! assert_eq!((again.number, again.comparisons), (6, 1));
//! ```
pub use crate::exported::{
    address, check, code, enter, file, job, open, pad, pad_into, report, show, withdraw, Answer, Done, Tally, Wrote,
};
