//! A store with its words and its scratch, owned or lent.
use crate::answers::{letters, Counts, Listing};
use crate::exported::{self, Tally};
use crate::header::Header;
use crate::refusal::{done, Refusal};
use crate::sizes::{LONGEST_ANSWER, MOST_FAULTS, MOST_WORDS, SCRATCH};
use crate::terms::{Bounds, Held, Limits};
use std::fmt;

/// The bytes of a word in a file.
const WORD_BYTES: usize = 4;

/// A store of cards and their faults.
///
/// It has words and scratch, which are its own (`Store`) or lent ([`LentStore`]); any types will do that give slices. All
/// that it keeps stands in the words: they can be written to a file, read back, and put under a store by [`Store::over`];
/// [`Store::to_bytes`] and [`Store::from_bytes`] go between a store and the bytes of its file.
///
/// Each call tests first whether the words are those of a sound store, so damaged words are refused by
/// [`Refusal::NotSound`] and never followed. A refused call changes nothing that is kept.
///
/// A serial is the exact bytes of a label, 1 to 16 digits, capital letters and hyphens, as anything that gives bytes.
///
/// ```
/// use card_store::{Limits, Refusal, Store};
///
/// let mut store = Store::new(Limits { cards: 64, faults: 128 })?;
/// for serial in ["7", "07", "007"] {
///     store.enter(serial)?;
/// }
/// store.file("007", 100, 12)?;
/// assert_eq!(store.show("007")?.faults.len(), 1);
/// assert_eq!(store.show("7")?.faults, []);
/// assert_eq!(store.enter("7"), Err(Refusal::AlreadyHeld));
/// # Ok::<(), Refusal>(())
/// ```
///
/// It keeps nothing that is shared, so it may go to another thread, as its words and scratch may. The calls take it by
/// `&mut`, also those that change no word, since scratch is written: for several threads, put it in a `Mutex`.
///
/// Two stores are equal where their words are; scratch plays no part. `{:?}` tells what a store is for and what it holds,
/// or that it is not sound, and never its words.
///
/// ```
/// use card_store::{Limits, Refusal, Store, SCRATCH};
///
/// let mut store = Store::new(Limits { cards: 8, faults: 16 })?;
/// let mut words = store.words().to_vec();
/// assert_eq!(store, Store::over(&words, [0; SCRATCH]));
/// store.enter("007")?;
/// assert_ne!(store, Store::over(&words, [0; SCRATCH]));
///
/// let limits = "limits: Limits { cards: 8, faults: 16 }, bounds: Bounds { upper: 4, lower: 2 }";
/// assert_eq!(format!("{store:?}"), format!("Store {{ {limits}, held: Held {{ cards: 1, faults: 0 }} }}"));
/// words[15] = 1;
/// let damaged = Store::over(&words, [0; SCRATCH]);
/// assert_eq!(format!("{damaged:?}"), "Store { refused: NotSound, words: 408 }");
/// # Ok::<(), Refusal>(())
/// ```
#[derive(Clone)]
pub struct Store<W = Vec<u32>, S = Vec<u8>> {
    words: W,
    scratch: S,
}

/// A store in words and scratch that someone else has.
pub type LentStore<'a> = Store<&'a mut [u32], &'a mut [u8]>;

impl Store {
    /// A fresh store of its own, with the load bounds 4 and 2. Refused by [`BadLimits`](Refusal::BadLimits).
    pub fn new(limits: Limits) -> Result<Store, Refusal> {
        Store::with_bounds(limits, Bounds::default())
    }

    /// A fresh store of its own. Refused by [`BadLimits`](Refusal::BadLimits), then by [`BadBounds`](Refusal::BadBounds).
    ///
    /// ```
    /// use card_store::{Bounds, Limits, Refusal, Store};
    ///
    /// let limits = Limits { cards: 256, faults: 512 };
    /// assert!(Store::with_bounds(limits, Bounds { upper: 10, lower: 1 }).is_ok());
    /// let refused = Store::with_bounds(limits, Bounds { upper: 2, lower: 2 });
    /// assert_eq!(refused.err(), Some(Refusal::BadBounds));
    /// ```
    pub fn with_bounds(limits: Limits, bounds: Bounds) -> Result<Store, Refusal> {
        // Limits that ask for more words than the largest store has are refused before the words are counted.
        let words = vec![0; limits.words().min(MOST_WORDS)];
        Store::open_in(words, vec![0; SCRATCH], limits, bounds)
    }

    /// The store of a file as [`to_bytes`](Store::to_bytes) and the program `desk` write it. Refused by
    /// [`NotSound`](Refusal::NotSound) where the last word is not whole. Nothing else is tested, as in
    /// [`over`](Store::over): [`check`](Store::check) tells whether it is sound, and each call asks the same.
    ///
    /// ```
    /// use card_store::{Limits, Refusal, Store};
    ///
    /// let mut store = Store::new(Limits { cards: 8, faults: 8 })?;
    /// store.enter("007")?;
    /// let file: Vec<u8> = store.to_bytes();
    ///
    /// let mut again = Store::from_bytes(&file)?;
    /// again.check()?;
    /// again.file("007", 100, 12)?;
    ///
    /// assert_eq!(Store::from_bytes(&file[1..]).err(), Some(Refusal::NotSound));
    /// assert_eq!(Store::from_bytes(&file[4..])?.check(), Err(Refusal::NotSound));
    /// # Ok::<(), Refusal>(())
    /// ```
    pub fn from_bytes(bytes: impl AsRef<[u8]>) -> Result<Store, Refusal> {
        let fours = bytes.as_ref().chunks_exact(WORD_BYTES);
        if !fours.remainder().is_empty() {
            return Err(Refusal::NotSound);
        }
        let words = fours.map(|four| u32::from_le_bytes([four[0], four[1], four[2], four[3]])).collect();
        Ok(Store::over(words, vec![0; SCRATCH]))
    }
}

impl<W: AsRef<[u32]>, S> Store<W, S> {
    /// How many cards and faults it was opened for. Refused by [`NotSound`](Refusal::NotSound), so that no number of a
    /// damaged store passes for a true one.
    ///
    /// ```
    /// use card_store::{Limits, Refusal, Store, SCRATCH};
    ///
    /// let limits = Limits { cards: 64, faults: 128 };
    /// let store = Store::new(limits)?;
    /// assert_eq!(store.limits(), Ok(limits));
    ///
    /// let mut damaged = store.into_words();
    /// damaged[1] = 65;
    /// assert_eq!(Store::over(damaged, [0; SCRATCH]).limits(), Err(Refusal::NotSound));
    /// # Ok::<(), Refusal>(())
    /// ```
    pub fn limits(&self) -> Result<Limits, Refusal> {
        Header::of(self.words.as_ref()).map(|header| header.limits)
    }

    /// The load bounds that it was opened with; 4 and 2 where it is of format 1. Refused as [`limits`](Store::limits) is.
    ///
    /// ```
    /// use card_store::{Bounds, Limits, Refusal, Store};
    ///
    /// let bounds = Bounds { upper: 10, lower: 1 };
    /// let store = Store::with_bounds(Limits { cards: 64, faults: 128 }, bounds)?;
    /// assert_eq!(store.bounds(), Ok(bounds));
    /// # Ok::<(), Refusal>(())
    /// ```
    pub fn bounds(&self) -> Result<Bounds, Refusal> {
        Header::of(self.words.as_ref()).map(|header| header.bounds)
    }

    /// How many cards and faults it holds now. Refused as [`limits`](Store::limits) is.
    ///
    /// ```
    /// use card_store::{Held, Limits, Refusal, Store};
    ///
    /// let mut store = Store::new(Limits { cards: 64, faults: 128 })?;
    /// store.enter("7")?;
    /// store.enter("007")?;
    /// store.file("007", 100, 12)?;
    /// assert_eq!(store.held(), Ok(Held { cards: 2, faults: 1 }));
    /// store.withdraw("007")?;
    /// assert_eq!(store.held(), Ok(Held { cards: 1, faults: 0 }));
    /// # Ok::<(), Refusal>(())
    /// ```
    pub fn held(&self) -> Result<Held, Refusal> {
        Header::of(self.words.as_ref()).map(|header| header.held)
    }

    /// The words as the bytes of a file, four a word, the lowest first, sound or not: what the program `desk` keeps in its
    /// file for the same store (`docs/DESK.md`).
    ///
    /// ```
    /// use card_store::{Limits, Refusal, Store};
    ///
    /// let store = Store::new(Limits { cards: 1, faults: 258 })?;
    /// let file = store.to_bytes();
    /// assert_eq!(file.len(), 4 * store.words().len());
    /// // Format 2, for 1 card and 258 faults.
    /// assert_eq!(file[..12], [2, 0, 0, 0, 1, 0, 0, 0, 2, 1, 0, 0]);
    /// # Ok::<(), Refusal>(())
    /// ```
    pub fn to_bytes(&self) -> Vec<u8> {
        self.words.as_ref().iter().flat_map(|word| word.to_le_bytes()).collect()
    }
}

impl<W: AsRef<[u32]>, S: AsMut<[u8]>> Store<W, S> {
    /// The store that stands in these words already, whatever they are: from a file, say. Nothing is tested here, so that
    /// damaged words are not lost to their owner; [`check`](Store::check) tells whether they are sound, and each call asks
    /// the same.
    ///
    /// ```
    /// use card_store::{Limits, Refusal, Store, SCRATCH};
    ///
    /// let mut store = Store::new(Limits { cards: 8, faults: 8 })?;
    /// store.enter("007")?;
    /// let mut kept: Vec<u32> = store.into_words();
    ///
    /// let mut scratch = [0; SCRATCH];
    /// let mut again = Store::over(&mut kept, &mut scratch);
    /// again.file("007", 100, 12)?;
    ///
    /// kept[15] = 1;
    /// assert_eq!(Store::over(&kept, &mut scratch).check(), Err(Refusal::NotSound));
    /// # Ok::<(), Refusal>(())
    /// ```
    pub fn over(words: W, scratch: S) -> Store<W, S> {
        Store { words, scratch }
    }

    /// The words.
    pub fn words(&self) -> &[u32] {
        self.words.as_ref()
    }

    /// The words, handed back.
    pub fn into_words(self) -> W {
        self.words
    }

    /// Whether the words are those of a sound store. Refused by [`ShortScratch`](Refusal::ShortScratch) or
    /// [`NotSound`](Refusal::NotSound).
    pub fn check(&mut self) -> Result<(), Refusal> {
        done(exported::check(self.words.as_ref(), self.scratch.as_mut()))
    }

    /// The faults of a card by rising day, those of one day in the order of filing. Beside what [`check`](Store::check)
    /// refuses, refused by [`BadSerial`](Refusal::BadSerial) or [`NotHeld`](Refusal::NotHeld).
    ///
    /// ```
    /// use card_store::{Fault, Limits, Refusal, Store};
    ///
    /// let mut store = Store::new(Limits { cards: 8, faults: 8 })?;
    /// store.enter("BRK-17")?;
    /// store.file("BRK-17", 140, 12)?;
    /// store.file("BRK-17", 133, 30)?;
    /// let listing = store.show("BRK-17")?;
    /// assert_eq!(listing.faults, [Fault { day: 133, code: 30 }, Fault { day: 140, code: 12 }]);
    /// assert_eq!(listing.counts.comparisons, 1);
    /// assert_eq!(store.show("BRK-18"), Err(Refusal::NotHeld));
    /// # Ok::<(), Refusal>(())
    /// ```
    pub fn show(&mut self, serial: impl AsRef<[u8]>) -> Result<Listing, Refusal> {
        let label = serial.as_ref();
        let mut room = fullest_room();
        let (words, scratch) = (self.words.as_ref(), self.scratch.as_mut());
        let answer = exported::show(words, scratch, &exported::pad(label), label.len(), &mut room);
        done(answer.number)?;
        Ok(Listing::read(&room, answer))
    }
}

impl<W: AsRef<[u32]> + AsMut<[u32]>, S: AsMut<[u8]>> Store<W, S> {
    /// A fresh store in these words, whatever they were; there must be as many as [`Limits::words`] says. Refused by
    /// [`BadLimits`](Refusal::BadLimits), [`BadBounds`](Refusal::BadBounds) or [`BadLength`](Refusal::BadLength), and then
    /// the words are as they were.
    ///
    /// ```
    /// use card_store::{Bounds, LentStore, Limits, Refusal, Store, SCRATCH};
    ///
    /// const LIMITS: Limits = Limits { cards: 8, faults: 8 };
    /// let mut words = [0; LIMITS.words()];
    /// let mut scratch = [0; SCRATCH];
    /// let mut store: LentStore = Store::open_in(&mut words[..], &mut scratch[..], LIMITS, Bounds::default())?;
    /// store.enter("007")?;
    /// # Ok::<(), Refusal>(())
    /// ```
    pub fn open_in(words: W, scratch: S, limits: Limits, bounds: Bounds) -> Result<Store<W, S>, Refusal> {
        let mut words = words;
        let Limits { cards, faults } = limits;
        done(exported::open(words.as_mut(), cards, faults, bounds.upper, bounds.lower))?;
        Ok(Store { words, scratch })
    }

    /// Enters a card without faults. Beside what [`check`](Store::check) refuses, refused by
    /// [`BadSerial`](Refusal::BadSerial), [`AlreadyHeld`](Refusal::AlreadyHeld) or [`CardsFull`](Refusal::CardsFull).
    pub fn enter(&mut self, serial: impl AsRef<[u8]>) -> Result<Counts, Refusal> {
        let label = serial.as_ref();
        let (words, scratch) = (self.words.as_mut(), self.scratch.as_mut());
        let answer = exported::enter(words, scratch, &exported::pad(label), label.len());
        done(answer.number)?;
        Ok(Counts::of(answer))
    }

    /// Files a fault against a card that is held. Beside what [`check`](Store::check) refuses, refused by
    /// [`BadSerial`](Refusal::BadSerial), [`BadFault`](Refusal::BadFault), [`NotHeld`](Refusal::NotHeld) or
    /// [`FaultsFull`](Refusal::FaultsFull).
    pub fn file(&mut self, serial: impl AsRef<[u8]>, day: u32, code: u32) -> Result<Counts, Refusal> {
        let label = serial.as_ref();
        let (words, scratch) = (self.words.as_mut(), self.scratch.as_mut());
        let answer = exported::file(words, scratch, &exported::pad(label), label.len(), day, code);
        done(answer.number)?;
        Ok(Counts::of(answer))
    }

    /// Withdraws a card, with its faults, and gives what [`show`](Store::show) would have given. Refused as `show` is.
    pub fn withdraw(&mut self, serial: impl AsRef<[u8]>) -> Result<Listing, Refusal> {
        let label = serial.as_ref();
        let mut room = fullest_room();
        let (words, scratch) = (self.words.as_mut(), self.scratch.as_mut());
        let answer = exported::withdraw(words, scratch, &exported::pad(label), label.len(), &mut room);
        done(answer.number)?;
        Ok(Listing::read(&room, answer))
    }

    /// Runs a job and gives the answers, a line for each line of the text; adds what was done to the tally. `docs/JOB.md`
    /// says what lines ask and what answers say. All lines are answered, however long the answers get. Beside what
    /// [`check`](Store::check) refuses, refused by [`LongText`](Refusal::LongText), and then nothing was done.
    ///
    /// ```
    /// use card_store::{Limits, Refusal, Store, Tally};
    ///
    /// let mut store = Store::new(Limits { cards: 8, faults: 8 })?;
    /// let mut tally = Tally::default();
    /// let answers = store.job("E 7\nE 007\nF 007 100 12\nS 007\nE 7\n", &mut tally)?;
    /// assert_eq!(answers, "0 0 0 0\n0 1 0 0\n0 2 0 1\n0 2 0 1 100:12\n6 1 0 0\n");
    /// assert_eq!((tally.entries, tally.filings), (2, 1));
    /// # Ok::<(), Refusal>(())
    /// ```
    pub fn job(&mut self, text: impl AsRef<[u8]>, tally: &mut Tally) -> Result<String, Refusal> {
        let mut rest = text.as_ref();
        let mut answers = String::new();
        // Any one answer fits, so each go does a line at least, and the next one starts at the line that did not fit.
        let mut out = vec![0; LONGEST_ANSWER];
        loop {
            let ended = exported::job(self.words.as_mut(), self.scratch.as_mut(), rest, &mut out, tally);
            answers += &letters(&out[..ended.bytes as usize]);
            match done(ended.number) {
                Err(Refusal::ShortRoom) if ended.lines > 0 => rest = behind(rest, ended.lines),
                other => return other.map(|()| answers),
            }
        }
    }
}

impl<W: AsRef<[u32]>, S> AsRef<[u32]> for Store<W, S> {
    fn as_ref(&self) -> &[u32] {
        self.words.as_ref()
    }
}

impl<W: AsRef<[u32]>, S, V: AsRef<[u32]>, T> PartialEq<Store<V, T>> for Store<W, S> {
    fn eq(&self, other: &Store<V, T>) -> bool {
        self.words.as_ref() == other.words.as_ref()
    }
}

impl<W: AsRef<[u32]>, S> Eq for Store<W, S> {}

impl<W: AsRef<[u32]>, S> fmt::Debug for Store<W, S> {
    fn fmt(&self, out: &mut fmt::Formatter<'_>) -> fmt::Result {
        let words = self.words.as_ref();
        let mut store = out.debug_struct("Store");
        match Header::of(words) {
            Ok(Header { limits, bounds, held }) => {
                store.field("limits", &limits).field("bounds", &bounds).field("held", &held)
            }
            Err(refusal) => store.field("refused", &refusal).field("words", &words.len()),
        };
        store.finish()
    }
}

/// Room for the faults of any card.
fn fullest_room() -> [u32; 2 * MOST_FAULTS as usize] {
    [0; 2 * MOST_FAULTS as usize]
}

/// What stands behind so many lines of a text that has more.
fn behind(text: &[u8], lines: u32) -> &[u8] {
    text.splitn(lines as usize + 1, |&byte| byte == b'\n').last().unwrap_or_default()
}
