//! Texts at the limits of the store and of a job, and texts of single calls.
use crate::frame::{jobs, Frame};
use frames::{CARDS, FAULTS};

/// Too many cards, too many faults, answers that do not fit, and a job that is too long.
pub fn brim() -> Vec<Frame> {
    let too_long = vec![b'S'; 16_385];
    let longest = vec![b'S'; 16_384];
    let frames = [
        vec![Frame::Open],
        jobs(&(0..CARDS + 6).map(|card| format!("E {card}")).collect::<Vec<_>>()),
        job("E 7\nE X\nW 9\nE X\nE Y\n"),
        jobs(&(0..FAULTS + 2).map(|_| "F 7 65535 9999".to_string()).collect::<Vec<_>>()),
        job("F 8 1 1\nF Z 1 1\nF 8 0 1\n"),
        // the answers of the first two lines leave no room for the third
        job("S 7\nS 7\nW 7\nW 8\n"),
        job("S 8\nW 7\nS 7\nF 8 1 1\nS 8\nE 7\nS 7\n"),
        vec![Frame::Job(too_long), Frame::Job(longest), Frame::Job(Vec::new())],
        job("S 8"),
    ];
    frames.concat()
}

/// Calls before Open, and then of each kind.
pub fn single() -> Vec<Frame> {
    let serials = [&b"7"[..], b"07", b"007", b"8", b"", b"a", b"1234567890ABCDEF", b"1234567890ABCDEFG"];
    let shows: Vec<Frame> = serials.iter().map(|serial| Frame::Show(serial.to_vec())).collect();
    let frames = [
        vec![Frame::Check],
        shows.clone(),
        job("S 7\n"),
        vec![Frame::Open, Frame::Check],
        shows.clone(),
        job("E 7\nE 007\nE 1234567890ABCDEF\nF 007 100 12\nF 007 101 13\n"),
        shows,
        vec![Frame::Check],
    ];
    frames.concat()
}

fn job(text: &str) -> Vec<Frame> {
    vec![Frame::Job(text.as_bytes().to_vec())]
}
