//! A line of a job, taken apart.
use crate::store::{Fault, Serial};

const LONGEST_LINE: usize = 64;

pub enum Operation {
    Enter,
    File(Fault),
    Show,
    Withdraw,
}

/// The operation of a well-formed line, and its serial field, which need not be a serial.
pub fn parse(line: &[u8]) -> Option<(Operation, &[u8])> {
    if line.len() > LONGEST_LINE {
        return None;
    }
    let mut fields = line.split(|&byte| byte == b' ');
    let (letter, serial) = (fields.next()?, fields.next()?);
    let operation = match (letter, fields.next()) {
        (b"E", None) => Operation::Enter,
        (b"S", None) => Operation::Show,
        (b"W", None) => Operation::Withdraw,
        (b"F", Some(day)) => Operation::File(Fault { day: number(day)?, code: number(fields.next()?)? }),
        _ => return None,
    };
    fields.next().is_none().then(|| (operation, serial))
}

/// A number field is 1 to 9 digits, so its value is below 2^32.
fn number(field: &[u8]) -> Option<u32> {
    let well_formed = (1..=9).contains(&field.len()) && field.iter().all(u8::is_ascii_digit);
    well_formed.then(|| field.iter().fold(0, |value, digit| 10 * value + u32::from(digit - b'0')))
}

/// The sixteen bytes of a valid serial.
pub fn serial(field: &[u8]) -> Option<Serial> {
    let mut bytes = [0; 16];
    bytes.get_mut(..field.len())?.copy_from_slice(field);
    let valid = !field.is_empty() && field.iter().all(|byte| matches!(byte, b'0'..=b'9' | b'A'..=b'Z' | b'-'));
    valid.then(|| bytes)
}
