//! The interface of the benchmarked programs, for those in Rust: frames on standard input, a line of sums at the end.
//! README.md says what a frame is.
use std::io::{self, Read, Write};

/// The limits of the store, its load bounds, the most input and the room for the answers of one job.
pub const CARDS: u32 = 1_024;
pub const FAULTS: u32 = 2_048;
pub const UPPER: u32 = 4;
pub const LOWER: u32 = 2;
pub const MOST_INPUT: usize = 262_144;
pub const OUT: usize = 65_536;

/// A head: a letter, nine digits and LF.
pub const HEAD: usize = 11;

/// What one frame adds to the first three sums.
#[derive(Clone, Copy, Debug, Default, PartialEq, Eq)]
pub struct Done {
    pub number: u32,
    pub lines: u32,
    pub bytes: u32,
}

/// A program that is fed frames.
pub trait Program {
    /// Opens the store afresh.
    fn open(&mut self);
    /// Runs a job, its answers into `out`, which is empty.
    fn job(&mut self, text: &[u8], out: &mut Vec<u8>) -> Done;
    /// Entries, withdrawals, filings, splits, contractions and comparisons so far.
    fn tally(&self) -> [u64; 6];
    /// One checked Show, if the program has it.
    fn show(&mut self, _serial: &[u8]) -> Option<Done> {
        None
    }
    /// One check of soundness, if the program has it.
    fn check(&mut self) -> Option<Done> {
        None
    }
}

/// A frame: its kind, the number in its head, and the text behind the head.
struct Frame<'a> {
    kind: u8,
    number: usize,
    text: &'a [u8],
}

/// Reads standard input, runs its frames, and writes the answers that are asked for and the sums.
pub fn run(program: &mut impl Program) -> Result<(), String> {
    let mut input = Vec::with_capacity(MOST_INPUT);
    io::stdin().take(MOST_INPUT as u64).read_to_end(&mut input).map_err(|error| error.to_string())?;
    let mut runner = Runner { program, out: Vec::with_capacity(OUT), sums: [0; 3] };
    runner.run_input(&input)?;
    let sums: Vec<String> = runner.sums.iter().chain(&runner.program.tally()).map(u64::to_string).collect();
    write(format!("sum {}\n", sums.join(" ")).as_bytes())
}

struct Runner<'a, P: Program> {
    program: &'a mut P,
    out: Vec<u8>,
    sums: [u64; 3],
}

impl<P: Program> Runner<'_, P> {
    fn run_input(&mut self, input: &[u8]) -> Result<(), String> {
        let rest = self.run_frames(input)?;
        if rest.is_empty() {
            return Ok(());
        }
        let (repeat, body) = next_frame(rest)?;
        for _ in 0..repeat.number {
            self.run_frames(body)?;
        }
        Ok(())
    }

    /// Runs frames up to the end or to an R frame, and gives what it left.
    fn run_frames<'i>(&mut self, input: &'i [u8]) -> Result<&'i [u8], String> {
        let mut rest = input;
        while rest.first().map_or(false, |&kind| kind != b'R') {
            let (frame, behind) = next_frame(rest)?;
            let done = self.run_frame(&frame)?;
            self.add(done);
            rest = behind;
        }
        Ok(rest)
    }

    fn run_frame(&mut self, frame: &Frame) -> Result<Done, String> {
        match frame.kind {
            b'O' => {
                self.program.open();
                Ok(Done::default())
            }
            b'J' => Ok(self.job(frame.text)),
            b'W' => {
                let done = self.job(frame.text);
                write(&self.out)?;
                Ok(done)
            }
            b'S' => self.program.show(frame.text).ok_or_else(|| "this program has no checked call".to_string()),
            b'C' => self.program.check().ok_or_else(|| "this program has no checker".to_string()),
            _ => Err("a frame of no known kind".to_string()),
        }
    }

    fn job(&mut self, text: &[u8]) -> Done {
        self.out.clear();
        self.program.job(text, &mut self.out)
    }

    fn add(&mut self, done: Done) {
        let more = [done.number, done.lines, done.bytes];
        self.sums.iter_mut().zip(more).for_each(|(sum, more)| *sum += u64::from(more));
    }
}

fn write(bytes: &[u8]) -> Result<(), String> {
    io::stdout().write_all(bytes).map_err(|error| error.to_string())
}

fn next_frame(input: &[u8]) -> Result<(Frame<'_>, &[u8]), String> {
    let cut = || "a frame that is cut short".to_string();
    let head = input.get(..HEAD).ok_or_else(cut)?;
    let number = head_number(head).ok_or("a head without nine digits and LF")?;
    let length = if matches!(head[0], b'J' | b'W' | b'S') { number } else { 0 };
    let text = input[HEAD..].get(..length).ok_or_else(cut)?;
    Ok((Frame { kind: head[0], number, text }, &input[HEAD + length..]))
}

fn head_number(head: &[u8]) -> Option<usize> {
    let digits = head[1..].strip_suffix(b"\n")?;
    let all_digits = digits.iter().all(u8::is_ascii_digit);
    all_digits.then(|| digits.iter().fold(0, |number, digit| 10 * number + usize::from(digit - b'0')))
}
