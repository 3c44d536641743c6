//! Buffers with zones around them: what is lent stands in the middle of one allocation, and the zones before and behind it
//! hold a pattern that depends on the place, so that a write outside, or a shift of the whole, is seen.
use card_store::Tally;
use std::fmt::Debug;
use std::mem::size_of;

/// Elements in each zone, at least.
const ZONE: usize = 40;

/// A lent buffer starts at any remainder of its address by this, as far as its type allows.
pub const ALIGNMENT: usize = 16;

pub trait Element: Copy + Debug + PartialEq {
    /// What stands at this place of a zone.
    fn at(place: usize) -> Self;
}

impl Element for u32 {
    fn at(place: usize) -> u32 {
        (place as u32 + 1).wrapping_mul(0x9e37_79b9) ^ 0x5a5a_a5a5
    }
}

impl Element for u8 {
    fn at(place: usize) -> u8 {
        (u32::at(place) >> 13) as u8
    }
}

impl Element for u64 {
    fn at(place: usize) -> u64 {
        u64::from(u32::at(place)) << 32 | u64::from(u32::at(place + 1))
    }
}

pub struct Guarded<T> {
    all: Vec<T>,
    start: usize,
    length: usize,
}

impl<T: Element> Guarded<T> {
    /// A copy of this content, at the first address behind a zone that is `offset` elements above a multiple of 16.
    pub fn new(content: &[T], offset: usize) -> Guarded<T> {
        let steps = ALIGNMENT / size_of::<T>();
        let mut all: Vec<T> = (0..2 * ZONE + steps + content.len()).map(T::at).collect();
        let base = all.as_ptr() as usize / size_of::<T>();
        let start = (ZONE..ZONE + steps).find(|place| (base + place) % steps == offset % steps).expect("a place");
        all[start..start + content.len()].copy_from_slice(content);
        Guarded { all, start, length: content.len() }
    }

    pub fn lent(&mut self) -> &mut [T] {
        &mut self.all[self.start..self.start + self.length]
    }

    pub fn shared(&self) -> &[T] {
        &self.all[self.start..self.start + self.length]
    }

    /// The buffer holds this, and the zones are as they were.
    pub fn holds(&self, content: &[T], what: &str) {
        assert!(self.shared() == content, "{what}: {}", first_difference(self.shared(), content));
        let behind = self.start + self.length;
        for place in (0..self.start).chain(behind..self.all.len()) {
            assert_eq!(self.all[place], T::at(place), "{what}: the zone at {place}, lent is {}..{behind}", self.start);
        }
    }
}

fn first_difference<T: Element>(held: &[T], wanted: &[T]) -> String {
    let differs = held.iter().zip(wanted).position(|(held, wanted)| held != wanted);
    match differs {
        Some(at) => format!("at {at} stands {:?}, not {:?}", held[at], wanted[at]),
        None => format!("{} elements, not {}", held.len(), wanted.len()),
    }
}

/// A tally between zones, 8 above a multiple of 16 or at one.
#[repr(C, align(16))]
pub struct GuardedTally<const BEFORE: usize> {
    before: [u64; BEFORE],
    tally: Tally,
    behind: [u64; 7],
}

impl<const BEFORE: usize> GuardedTally<BEFORE> {
    pub fn new(tally: Tally) -> GuardedTally<BEFORE> {
        GuardedTally { before: zone(), tally, behind: zone() }
    }

    pub fn lent(&mut self) -> &mut Tally {
        &mut self.tally
    }

    pub fn holds(&self, tally: Tally, what: &str) {
        assert_eq!(self.tally, tally, "{what}: the tally");
        assert_eq!((self.before, self.behind), (zone(), zone()), "{what}: the zones of the tally");
    }
}

fn zone<const LENGTH: usize>() -> [u64; LENGTH] {
    let mut place = 0;
    [(); LENGTH].map(|()| {
        place += 1;
        u64::at(place)
    })
}
