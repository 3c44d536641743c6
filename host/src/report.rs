//! Faults by code over several stores.
use crate::answers::letters;
use crate::exported;
use crate::refusal::{done, Refusal};
use crate::sizes::{LONGEST_REPORT, SCRATCH};

/// The report over one to eight stores: for each fault code that occurs a line of code, entries, cards, earliest and latest
/// day; then all cards, all faults, and faults per thousand cards. `docs/REPORT.md` has it in full.
///
/// Stores are given as themselves or as their words. Refused by [`BadStores`](Refusal::BadStores) where there is none or
/// more than eight, and by [`NotSound`](Refusal::NotSound) where one of them is not sound;
/// [`Store::check`](crate::Store::check) tells which.
///
/// ```
/// use card_store::{report, Limits, Refusal, Store};
///
/// let mut here = Store::new(Limits { cards: 8, faults: 8 })?;
/// let mut there = here.clone();
/// here.enter("7")?;
/// here.file("7", 100, 12)?;
/// there.enter("7")?;
///
/// assert_eq!(report(&[&here, &there])?, "12 1 1 100 100\n2\n1\n500 0\n");
/// # Ok::<(), Refusal>(())
/// ```
pub fn report<W: AsRef<[u32]>>(stores: &[W]) -> Result<String, Refusal> {
    let words: Vec<u32> = stores.iter().flat_map(|store| store.as_ref()).copied().collect();
    // No sound store is so long that its length is cut here.
    let lengths: Vec<u32> =
        stores.iter().map(|store| u32::try_from(store.as_ref().len()).unwrap_or(u32::MAX)).collect();
    let mut out = vec![0; LONGEST_REPORT];
    let wrote = exported::report(&words, &lengths, &mut [0; SCRATCH], &mut out);
    done(wrote.number)?;
    Ok(letters(&out[..wrote.count as usize]))
}
