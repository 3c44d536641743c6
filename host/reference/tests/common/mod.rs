//! A reader for the tests: a store with scratch and room enough, called with serials as text.
// Each test file uses a part of this.
#![allow(dead_code)]
use reference::calls;
use reference::lists::Store;
use reference::operations::Answer;
use reference::sound;

#[derive(Clone)]
pub struct Reader {
    pub words: Vec<u32>,
    pub room: Vec<u32>,
}

/// A serial as it travels. What is over sixteen bytes is told by the length alone.
pub fn sent(serial: &str) -> ([u8; 16], usize) {
    let mut bytes = [0; 16];
    bytes.iter_mut().zip(serial.bytes()).for_each(|(to, from)| *to = from);
    (bytes, serial.len())
}

/// The four numbers of an answer.
pub fn numbers(answer: Answer) -> [u32; 4] {
    [answer.number, answer.comparisons, answer.scanned, answer.faults]
}

impl Reader {
    pub fn open(cards: u32, faults: u32) -> Reader {
        Reader::open_with(cards, faults, 4, 2)
    }

    pub fn open_with(cards: u32, faults: u32, upper: u32, lower: u32) -> Reader {
        let mut words = vec![0; 288 + 9 * cards as usize + 3 * faults as usize];
        assert_eq!(calls::open(&mut words, cards, faults, upper, lower), 0);
        Reader { words, room: vec![0; 2 * faults as usize] }
    }

    /// A fresh store as it was before there were bounds in it.
    pub fn format_1(cards: u32, faults: u32) -> Reader {
        let mut reader = Reader::open(cards, faults);
        (reader.words[0], reader.words[14]) = (1, 0);
        reader
    }

    pub fn enter(&mut self, serial: &str) -> [u32; 4] {
        let (bytes, length) = sent(serial);
        numbers(calls::enter(&mut self.words, &mut [0; 384], bytes, length))
    }

    pub fn file(&mut self, serial: &str, day: u32, code: u32) -> [u32; 4] {
        let (bytes, length) = sent(serial);
        numbers(calls::file(&mut self.words, &mut [0; 384], bytes, length, day, code))
    }

    pub fn show(&mut self, serial: &str) -> [u32; 4] {
        let (bytes, length) = sent(serial);
        numbers(calls::show(&self.words, &mut [0; 384], bytes, length, &mut self.room))
    }

    pub fn withdraw(&mut self, serial: &str) -> [u32; 4] {
        let (bytes, length) = sent(serial);
        numbers(calls::withdraw(&mut self.words, &mut [0; 384], bytes, length, &mut self.room))
    }

    pub fn enter_all<'a>(&mut self, serials: impl IntoIterator<Item = &'a String>) {
        for serial in serials {
            assert_eq!(self.enter(serial)[0], 0, "{serial}");
        }
    }

    /// The lists of the store, which must be sound.
    pub fn lists(&self) -> Store {
        sound::read(&self.words).expect("a sound store")
    }

    /// The serials of a bucket in the order of its chain.
    pub fn chain(&self, bucket: usize) -> Vec<String> {
        let serial = |bytes: &[u8]| String::from_utf8(bytes.to_vec()).unwrap();
        self.lists().buckets[bucket].iter().map(|card| serial(card.serial.bytes())).collect()
    }
}

/// Serials C0, C1, C2 and so on.
pub fn serials(count: usize) -> Vec<String> {
    (0..count).map(|n| format!("C{n}")).collect()
}
