//! Stores to hold a checker to: each is the number of its words and the words, 32 bits each, the lowest byte first.
use crate::{edits, near};
use reference::sound;
use std::io::{self, Read, Write};

/// Writes stores, some of them sound.
pub fn write() -> io::Result<()> {
    edits::stores().iter().chain(&near::stores()).try_for_each(|words| put(words))
}

fn put(words: &[u32]) -> io::Result<()> {
    let length = words.len() as u32;
    let bytes: Vec<u8> = [&[length], words].concat().iter().flat_map(|word| word.to_le_bytes()).collect();
    io::stdout().write_all(&bytes)
}

/// Reads stores, and writes 1 or 0 for each: sound or not.
pub fn judge() -> io::Result<()> {
    let mut bytes = Vec::new();
    io::stdin().read_to_end(&mut bytes)?;
    let numbers: Vec<u32> = bytes.chunks_exact(4).map(|four| u32::from_le_bytes(four.try_into().unwrap())).collect();
    let mut rest = &numbers[..];
    while let Some((&length, behind)) = rest.split_first() {
        let (words, next) = behind.split_at(length as usize);
        println!("{}", u32::from(sound::sound(words)));
        rest = next;
    }
    Ok(())
}
