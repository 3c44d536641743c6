//! Frames as bytes, and lines put together to jobs.
use frames::MOST_INPUT;

/// A job has at most so many bytes and, to have jobs of like size for every number of cards, so many lines.
const LONGEST_JOB: usize = 16_384;
const MOST_LINES: usize = 1_024;

#[derive(Clone)]
pub enum Frame {
    Open,
    Job(Vec<u8>),
    Show(Vec<u8>),
    Check,
    /// What is behind it is done so many times.
    Repeat(usize),
}

impl Frame {
    fn bytes(&self, written: bool) -> Vec<u8> {
        match self {
            Frame::Open => frame('O', 0, b""),
            Frame::Job(text) => frame(if written { 'W' } else { 'J' }, text.len(), text),
            Frame::Show(serial) => frame('S', serial.len(), serial),
            Frame::Check => frame('C', 0, b""),
            Frame::Repeat(turns) => frame('R', *turns, b""),
        }
    }
}

fn frame(kind: char, number: usize, text: &[u8]) -> Vec<u8> {
    [format!("{kind}{number:09}\n").as_bytes(), text].concat()
}

/// All frames one behind another, with the answers of jobs written or not.
pub fn bytes(frames: &[Frame], written: bool) -> Vec<u8> {
    let all: Vec<u8> = frames.iter().flat_map(|frame| frame.bytes(written)).collect();
    assert!(all.len() <= MOST_INPUT, "the programs read no more than {MOST_INPUT} bytes");
    all
}

/// The same frames with an empty job before each job, which does nothing but test soundness, and a test before each call.
pub fn tested_twice(frames: &[Frame]) -> Vec<Frame> {
    let mut twice = Vec::new();
    for frame in frames {
        match frame {
            Frame::Job(_) => twice.push(Frame::Job(Vec::new())),
            Frame::Show(_) => twice.push(Frame::Check),
            _ => (),
        }
        twice.push(frame.clone());
    }
    twice
}

/// Lines without their LF as jobs, each as long as it may be.
pub fn jobs(lines: &[String]) -> Vec<Frame> {
    let mut jobs = Vec::new();
    let (mut text, mut count) = (Vec::new(), 0);
    for line in lines {
        if text.len() + line.len() + 1 > LONGEST_JOB || count == MOST_LINES {
            jobs.push(Frame::Job(std::mem::take(&mut text)));
            count = 0;
        }
        text.extend_from_slice(line.as_bytes());
        text.push(b'\n');
        count += 1;
    }
    if count > 0 {
        jobs.push(Frame::Job(text));
    }
    jobs
}
