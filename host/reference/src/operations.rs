//! The four operations on a store of lists, with their answers. A refused operation leaves the store as it was.
use crate::lists::{Entry, Search, Store};
use crate::serial::Serial;

/// What is asked of a store, beside the serial.
#[derive(Clone, Copy, Debug, PartialEq, Eq)]
pub enum Operation {
    Enter,
    File(Entry),
    Show,
    Withdraw,
}

/// The four numbers of an answer.
#[derive(Clone, Copy, Debug, Default, PartialEq, Eq)]
pub struct Answer {
    pub number: u32,
    pub comparisons: u32,
    pub scanned: u32,
    pub faults: u32,
}

/// An answer, and the faults that a done Show or Withdraw lists, by rising day.
#[derive(Clone, Debug, PartialEq, Eq)]
pub struct Outcome {
    pub answer: Answer,
    pub listed: Vec<Entry>,
}

/// A refusal before the search.
pub fn refused(number: u32) -> Outcome {
    Outcome { answer: Answer { number, ..Answer::default() }, listed: Vec::new() }
}

/// An answer after the search.
fn answered(search: Search, number: u32, scanned: usize, faults: usize) -> Outcome {
    let (comparisons, scanned, faults) = (search.comparisons as u32, scanned as u32, faults as u32);
    Outcome { answer: Answer { number, comparisons, scanned, faults }, listed: Vec::new() }
}

/// Done, or refused: each refusal is a line that ends in `?`, in the order in which the rules test them.
type Answered = Result<Outcome, Outcome>;

/// Runs one operation. `serial` is nothing where what was given is not valid; `room` is the number of words lent for pairs.
pub fn apply(store: &mut Store, operation: Operation, serial: Option<Serial>, room: usize) -> Outcome {
    let answered = match (operation, serial) {
        (_, None) => Err(refused(4)),
        (Operation::Enter, Some(serial)) => enter(store, serial),
        (Operation::File(entry), Some(serial)) => file(store, &serial, entry),
        (Operation::Show, Some(serial)) => show(store, &serial, room),
        (Operation::Withdraw, Some(serial)) => withdraw(store, &serial, room),
    };
    answered.unwrap_or_else(|refusal| refusal)
}

fn refuse_if(applies: bool, refusal: Outcome) -> Result<(), Outcome> {
    if applies {
        Err(refusal)
    } else {
        Ok(())
    }
}

/// The search for a card that must be held, and the card's place in its bucket.
fn find(store: &Store, serial: &Serial) -> Result<(Search, usize), Outcome> {
    let search = store.search(serial);
    let place = search.place.ok_or_else(|| answered(search, 7, 0, 0))?;
    Ok((search, place))
}

fn enter(store: &mut Store, serial: Serial) -> Answered {
    let search = store.search(&serial);
    refuse_if(search.place.is_some(), answered(search, 6, 0, 0))?;
    refuse_if(store.cards_held() == store.limits.cards as usize, answered(search, 8, 0, 0))?;
    store.place(search.bucket, serial);
    let scanned = store.grow();
    Ok(answered(search, 0, scanned, 0))
}

fn file(store: &mut Store, serial: &Serial, entry: Entry) -> Answered {
    refuse_if(!entry.in_range(), refused(5))?;
    let (search, place) = find(store, serial)?;
    refuse_if(store.faults_held() == store.limits.faults as usize, answered(search, 9, 0, 0))?;
    store.file(search.bucket, place, entry);
    let count = store.buckets[search.bucket][place].faults.len();
    Ok(answered(search, 0, 0, count))
}

fn show(store: &Store, serial: &Serial, room: usize) -> Answered {
    let (search, place) = find(store, serial)?;
    let listed = store.buckets[search.bucket][place].listing();
    let count = listed.len();
    refuse_if(room < 2 * count, answered(search, 10, 0, count))?;
    Ok(Outcome { listed, ..answered(search, 0, 0, count) })
}

/// A withdrawal answers as Show does, and the card is gone after it.
fn withdraw(store: &mut Store, serial: &Serial, room: usize) -> Answered {
    let mut outcome = show(store, serial, room)?;
    let (search, place) = find(store, serial)?;
    store.remove(search.bucket, place);
    outcome.answer.scanned = store.shrink() as u32;
    Ok(outcome)
}
