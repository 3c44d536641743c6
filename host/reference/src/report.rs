//! Faults by code: one report over up to eight stores, which stand one behind another in one run of words.
use crate::calls;
use crate::lists::Store;
use crate::sound;
use std::collections::{BTreeMap, BTreeSet};

/// The most stores of a report.
pub const MOST_STORES: usize = 8;

/// The number of a report, and how many bytes it wrote.
#[derive(Clone, Copy, Debug, PartialEq, Eq)]
pub struct Wrote {
    pub number: u32,
    pub count: u32,
}

/// Writes the report, or nothing where it is refused.
pub fn report(words: &[u32], lengths: &[u32], scratch: &mut [u8], out: &mut [u8]) -> Wrote {
    match admitted(words, lengths, scratch, out.len()) {
        Err(number) => Wrote { number, count: 0 },
        Ok(text) => {
            out[..text.len()].copy_from_slice(text.as_bytes());
            Wrote { number: 0, count: text.len() as u32 }
        }
    }
}

/// The text, or the first refusal that applies.
fn admitted(words: &[u32], lengths: &[u32], scratch: &mut [u8], room: usize) -> Result<String, u32> {
    if !calls::cleared(scratch) {
        return Err(11);
    }
    if lengths.is_empty() || lengths.len() > MOST_STORES {
        return Err(14);
    }
    let stores = stores(words, lengths).ok_or(3_u32)?;
    let text = text(&stores);
    if room < text.len() {
        return Err(10);
    }
    Ok(text)
}

/// The stores of a run, if the lengths add up to it and every store is sound. No words at all are no store.
pub fn stores(words: &[u32], lengths: &[u32]) -> Option<Vec<Store>> {
    let sum: u64 = lengths.iter().map(|&length| u64::from(length)).sum();
    if sum != words.len() as u64 {
        return None;
    }
    let mut rest = words;
    let mut stores = Vec::new();
    for &length in lengths {
        let (store, behind) = rest.split_at(length as usize);
        stores.push(sound::read(store)?);
        rest = behind;
    }
    Some(stores)
}

/// A line for each code that occurs; then all cards, all entries, and entries per thousand cards.
pub fn text(stores: &[Store]) -> String {
    // Of each code the card and the day of every entry. A card is told by its place among all cards of all stores.
    let mut filed: BTreeMap<u32, Vec<(usize, u32)>> = BTreeMap::new();
    let cards: Vec<_> = stores.iter().flat_map(|store| store.cards()).collect();
    for (place, card) in cards.iter().enumerate() {
        for fault in &card.faults {
            filed.entry(fault.entry.code).or_default().push((place, fault.entry.day));
        }
    }
    let mut text: String = filed.iter().map(|(&code, entries)| code_line(code, entries)).collect();
    let (cards, entries) = (cards.len(), filed.values().map(Vec::len).sum::<usize>());
    text += &format!("{cards}\n{entries}\n");
    if cards != 0 {
        let thousandfold = 1_000 * entries;
        text += &format!("{} {}\n", thousandfold / cards, thousandfold % cards);
    }
    text
}

/// Code, entries, cards that have it, earliest and latest day.
fn code_line(code: u32, entries: &[(usize, u32)]) -> String {
    let cards: BTreeSet<usize> = entries.iter().map(|&(card, _)| card).collect();
    let mut days: Vec<u32> = entries.iter().map(|&(_, day)| day).collect();
    days.sort_unstable();
    format!("{code} {} {} {} {}\n", entries.len(), cards.len(), days[0], days[days.len() - 1])
}
