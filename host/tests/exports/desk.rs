//! Each call is made twice: of the archive, on guarded buffers at changing addresses, and of the second program, on plain
//! ones. The answers and all that every buffer holds afterwards have to agree.
use crate::guarded::{Element, Guarded, GuardedTally};
use crate::seen::Seen;
use card_store::{calls, Tally};
use reference::calls as second;
use reference::random::Random;
use reference::{job, report, rules, sound};

/// One of the four calls. Room is what it holds before the call.
pub enum Act<'a> {
    Enter,
    File { day: u32, code: u32 },
    Show { room: &'a [u32] },
    Withdraw { room: &'a [u32] },
}

/// A serial as it travels, whatever its bytes and its length.
#[derive(Clone, Copy, Debug)]
pub struct Sent {
    pub bytes: [u8; 16],
    pub length: usize,
}

pub struct Desk {
    offsets: Random,
    pub seen: Seen,
}

impl Desk {
    pub fn new(seed: u64) -> Desk {
        Desk { offsets: Random::new(seed), seen: Seen::default() }
    }

    /// A guarded copy of this content, for the buffer of this name.
    fn lend<T: Element>(&mut self, name: &'static str, content: &[T]) -> Guarded<T> {
        let guarded = Guarded::new(content, self.offsets.below(16));
        self.seen.buffer(name, guarded.shared().as_ptr(), content.is_empty());
        guarded
    }

    pub fn open(&mut self, words: &mut [u32], [cards, faults, upper, lower]: [u32; 4]) -> u32 {
        let mut lent = self.lend("open words", words);
        let number = calls::open(lent.lent(), cards, faults, upper, lower);
        let what = format!("open {cards} {faults} {upper} {lower} on {} words", words.len());
        assert_eq!(number, second::open(words, cards, faults, upper, lower), "{what}");
        lent.holds(words, &what);
        self.seen.call("open", number);
        number
    }

    pub fn check(&mut self, words: &[u32], scratch: &[u8]) -> u32 {
        let (lent_words, mut lent_scratch) = (self.lend("check words", words), self.lend("check scratch", scratch));
        let number = calls::check(lent_words.shared(), lent_scratch.lent());
        let mut left = scratch.to_vec();
        assert_eq!(number, judged(words, &mut left), "check of {} words", words.len());
        lent_words.holds(words, "check, words");
        lent_scratch.holds(&left, "check, scratch");
        self.seen.call("check", number);
        number
    }

    /// One of the four calls; gives the four numbers of its answer.
    pub fn call(&mut self, words: &mut [u32], scratch: &[u8], sent: Sent, act: &Act) -> [u32; 4] {
        match *act {
            Act::Enter => self.enter(words, scratch, sent),
            Act::File { day, code } => self.file(words, scratch, sent, day, code),
            Act::Show { room } => self.show(words, scratch, sent, room),
            Act::Withdraw { room } => self.withdraw(words, scratch, sent, room),
        }
    }

    fn enter(&mut self, words: &mut [u32], scratch: &[u8], sent: Sent) -> [u32; 4] {
        let mut lent_words = self.lend("enter words", words);
        let mut lent_scratch = self.lend("enter scratch", scratch);
        let serial = self.lend("enter serial", &sent.bytes);
        let answer = calls::enter(lent_words.lent(), lent_scratch.lent(), whole(&serial), sent.length);
        let mut left = scratch.to_vec();
        let wanted = second::enter(words, &mut left, sent.bytes, sent.length);
        let numbers = self.agreed("enter", sent, answer, wanted);
        lent_words.holds(words, "enter, words");
        lent_scratch.holds(&left, "enter, scratch");
        serial.holds(&sent.bytes, "enter, serial");
        numbers
    }

    fn file(&mut self, words: &mut [u32], scratch: &[u8], sent: Sent, day: u32, code: u32) -> [u32; 4] {
        let mut lent_words = self.lend("file words", words);
        let mut lent_scratch = self.lend("file scratch", scratch);
        let serial = self.lend("file serial", &sent.bytes);
        let answer = calls::file(lent_words.lent(), lent_scratch.lent(), whole(&serial), sent.length, day, code);
        let mut left = scratch.to_vec();
        let wanted = second::file(words, &mut left, sent.bytes, sent.length, day, code);
        let numbers = self.agreed("file", sent, answer, wanted);
        lent_words.holds(words, "file, words");
        lent_scratch.holds(&left, "file, scratch");
        serial.holds(&sent.bytes, "file, serial");
        numbers
    }

    fn show(&mut self, words: &[u32], scratch: &[u8], sent: Sent, room: &[u32]) -> [u32; 4] {
        let lent_words = self.lend("show words", words);
        let mut lent_scratch = self.lend("show scratch", scratch);
        let serial = self.lend("show serial", &sent.bytes);
        let mut lent_room = self.lend("show room", room);
        let (scratch_now, room_now) = (lent_scratch.lent(), lent_room.lent());
        let answer = calls::show(lent_words.shared(), scratch_now, whole(&serial), sent.length, room_now);
        let (mut left, mut listed) = (scratch.to_vec(), room.to_vec());
        let wanted = second::show(words, &mut left, sent.bytes, sent.length, &mut listed);
        let numbers = self.agreed("show", sent, answer, wanted);
        lent_words.holds(words, "show, words");
        lent_scratch.holds(&left, "show, scratch");
        serial.holds(&sent.bytes, "show, serial");
        lent_room.holds(&listed, "show, room");
        numbers
    }

    fn withdraw(&mut self, words: &mut [u32], scratch: &[u8], sent: Sent, room: &[u32]) -> [u32; 4] {
        let mut lent_words = self.lend("withdraw words", words);
        let mut lent_scratch = self.lend("withdraw scratch", scratch);
        let serial = self.lend("withdraw serial", &sent.bytes);
        let mut lent_room = self.lend("withdraw room", room);
        let (scratch_now, room_now) = (lent_scratch.lent(), lent_room.lent());
        let answer = calls::withdraw(lent_words.lent(), scratch_now, whole(&serial), sent.length, room_now);
        let (mut left, mut listed) = (scratch.to_vec(), room.to_vec());
        let wanted = second::withdraw(words, &mut left, sent.bytes, sent.length, &mut listed);
        let numbers = self.agreed("withdraw", sent, answer, wanted);
        lent_words.holds(words, "withdraw, words");
        lent_scratch.holds(&left, "withdraw, scratch");
        serial.holds(&sent.bytes, "withdraw, serial");
        lent_room.holds(&listed, "withdraw, room");
        numbers
    }

    fn agreed(
        &mut self,
        export: &'static str,
        sent: Sent,
        answer: calls::Answer,
        wanted: reference::operations::Answer,
    ) -> [u32; 4] {
        let numbers = [answer.number, answer.comparisons, answer.scanned, answer.faults];
        let wanted = [wanted.number, wanted.comparisons, wanted.scanned, wanted.faults];
        assert_eq!(numbers, wanted, "{export} {sent:?}");
        self.seen.call(export, answer.number);
        self.seen.scanned(export, answer.scanned);
        numbers
    }

    /// A job; gives its number, lines and bytes.
    pub fn job(
        &mut self,
        words: &mut [u32],
        scratch: &[u8],
        text: &[u8],
        out: &[u8],
        tally: &mut job::Tally,
    ) -> [u32; 3] {
        // One zone before the tally has an odd number of words and the other an even one.
        if self.offsets.below(2) == 0 {
            self.job_with(words, scratch, text, out, tally, GuardedTally::<7>::new(ours(tally)))
        } else {
            self.job_with(words, scratch, text, out, tally, GuardedTally::<8>::new(ours(tally)))
        }
    }

    fn job_with<const BEFORE: usize>(
        &mut self,
        words: &mut [u32],
        scratch: &[u8],
        text: &[u8],
        out: &[u8],
        tally: &mut job::Tally,
        mut lent_tally: GuardedTally<BEFORE>,
    ) -> [u32; 3] {
        let (mut lent_words, mut lent_scratch) = (self.lend("job words", words), self.lend("job scratch", scratch));
        let (lent_text, mut lent_out) = (self.lend("job text", text), self.lend("job out", out));
        self.seen.buffer("job tally", lent_tally.lent(), false);
        let (words_now, scratch_now) = (lent_words.lent(), lent_scratch.lent());
        let done = calls::job(words_now, scratch_now, lent_text.shared(), lent_out.lent(), lent_tally.lent());
        let (mut left, mut written) = (scratch.to_vec(), out.to_vec());
        let wanted = job::run(words, &mut left, text, &mut written, tally);
        let what = format!("job {:?}", String::from_utf8_lossy(&text[..text.len().min(60)]));
        let numbers = [done.number, done.lines, done.bytes];
        assert_eq!(numbers, [wanted.number, wanted.lines, wanted.bytes], "{what}");
        lent_words.holds(words, &what);
        lent_scratch.holds(&left, &what);
        lent_text.holds(text, &what);
        lent_out.holds(&written, &what);
        lent_tally.holds(ours(tally), &what);
        self.seen.call("job", done.number);
        self.seen.answers(&written[..done.bytes as usize]);
        numbers
    }

    /// A report; gives its number and the bytes written.
    pub fn report(&mut self, words: &[u32], lengths: &[u32], scratch: &[u8], out: &[u8]) -> [u32; 2] {
        let (lent_words, lent_lengths) = (self.lend("report words", words), self.lend("report lengths", lengths));
        let (mut lent_scratch, mut lent_out) = (self.lend("report scratch", scratch), self.lend("report out", out));
        let (scratch_now, out_now) = (lent_scratch.lent(), lent_out.lent());
        let wrote = calls::report(lent_words.shared(), lent_lengths.shared(), scratch_now, out_now);
        let (mut left, mut written) = (scratch.to_vec(), out.to_vec());
        let wanted = report::report(words, lengths, &mut left, &mut written);
        let numbers = [wrote.number, wrote.count];
        assert_eq!(numbers, [wanted.number, wanted.count], "report over {lengths:?}");
        lent_words.holds(words, "report, words");
        lent_lengths.holds(lengths, "report, lengths");
        lent_scratch.holds(&left, "report, scratch");
        lent_out.holds(&written, "report, output");
        self.seen.call("report", wrote.number);
        numbers
    }

    /// The bytes of a label, padded, and their code.
    pub fn label(&mut self, label: &[u8], before: [u8; 16]) {
        let (lent, mut serial) = (self.lend("pad label", label), self.lend("pad serial", &before));
        calls::pad_into(lent.shared(), serial.lent().try_into().expect("sixteen bytes"));
        let wanted: Vec<u8> = label.iter().copied().chain([0; 16]).take(16).collect();
        serial.holds(&wanted, "pad, serial");
        lent.holds(label, "pad, label");
        assert_eq!(calls::pad(label).to_vec(), wanted, "pad {label:?}");

        let lent = self.lend("code bytes", label);
        assert_eq!(calls::code(lent.shared()), rules::code(label), "code of {label:?}");
        lent.holds(label, "code, bytes");
    }

    pub fn address(&mut self, code: u32, maxp: u32, p: u32) {
        assert_eq!(calls::address(code, maxp, p), rules::address(code, maxp, p), "address {code} {maxp} {p}");
    }
}

/// What every call asks first, by the second program, and what it leaves of the scratch.
fn judged(words: &[u32], scratch: &mut [u8]) -> u32 {
    if scratch.len() < second::SCRATCH {
        return 11;
    }
    scratch[..second::SCRATCH].fill(0);
    if sound::sound(words) {
        0
    } else {
        3
    }
}

fn whole(serial: &Guarded<u8>) -> &[u8; 16] {
    serial.shared().try_into().expect("sixteen bytes")
}

fn ours(tally: &job::Tally) -> Tally {
    let job::Tally { entries, withdrawals, filings, splits, contractions, comparisons } = *tally;
    Tally { entries, withdrawals, filings, splits, contractions, comparisons }
}
