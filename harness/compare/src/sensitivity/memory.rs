//! All memory that a call is lent, every byte of which is watched.

use crate::abi::{GUARD, SLOT};
use crate::calls::Site;
use crate::paper::SLICE_NAMES;
use crate::random::Rng;
use crate::sensitivity::call::{Ask, Words, SHEETS};
use crate::sensitivity::expect::Due;
use crate::slot::Slot;

#[cfg(target_os = "linux")]
use crate::watch;

/// The most bytes of a further slice and of an output.
const ROOM: usize = 1 << 19;
/// Words that an output may have, so that it has its place.
pub const MOST_WORDS: usize = ROOM / 8 - 64;
/// The most further slices of an export.
const LISTS: usize = 5;

/// An output with bytes before it and, for some calls, behind it.
pub struct Sheet {
    slot: Slot,
    /// Bytes of the output.
    length: usize,
    /// Where in the pool its first contents stand.
    from: usize,
}

impl Sheet {
    pub fn new(room: usize) -> Sheet {
        Sheet { slot: Slot::new(room), length: 0, from: 0 }
    }

    pub fn fill(&mut self, pool: &[u8], turn: usize, length: usize, behind: bool) {
        let whole = GUARD + length + if behind { GUARD } else { 0 };
        self.from = 8 * (turn % ((pool.len() - whole) / 8));
        self.length = length;
        self.slot.fill(&pool[self.from..self.from + whole]);
    }

    pub fn start(&self) -> *mut u8 {
        unsafe { self.slot.start().add(GUARD) }
    }

    pub fn bytes(&self) -> &[u8] {
        &self.slot.bytes()[GUARD..GUARD + self.length]
    }

    /// What the output held before the call.
    pub fn before<'a>(&self, pool: &'a [u8]) -> &'a [u8] {
        &pool[self.from + GUARD..self.from + GUARD + self.length]
    }

    /// What is due and what is there, where the front is not these bytes or another byte moved.
    pub fn difference(
        &self,
        name: &str,
        size: usize,
        front: &[u8],
        pool: &[u8],
    ) -> Option<(String, String)> {
        let got = self.slot.bytes();
        let words = &self.bytes()[..front.len()];
        if words != front {
            let wrong = (0..front.len()).find(|&at| words[at] != front[at]).unwrap_or(0);
            let word = wrong / size * size..wrong / size * size + size;
            let due = format!("word {} of {} is ", wrong / size, name);
            return Some((due + &show(&front[word.clone()]), show(&words[word])));
        }
        let (due, rest) = (&pool[self.from..self.from + got.len()], GUARD + front.len());
        if got[..GUARD] == due[..GUARD] && got[rest..] == due[rest..] {
            return None;
        }
        let mut outside = (0..got.len()).filter(|&at| at < GUARD || at >= rest);
        let place = outside.find(|&at| got[at] != due[at]).unwrap_or(0) as isize - GUARD as isize;
        let kept = format!("{} unchanged but for its first {} words", name, front.len() / size);
        Some((kept, format!("byte {} moved", place)))
    }
}

/// A word of four or eight bytes.
fn show(bytes: &[u8]) -> String {
    let mut eight = [0; 8];
    eight[..bytes.len()].copy_from_slice(bytes);
    let word = u64::from_ne_bytes(eight);
    if bytes.len() == 4 {
        word.to_string()
    } else {
        format!("{:016x} ({:e})", word, f64::from_bits(word))
    }
}

pub struct Memory {
    network: [Slot; 4],
    lists: [Slot; LISTS],
    sheets: [Sheet; SHEETS],
    count: Sheet,
    pool: Vec<u8>,
    turn: usize,
}

impl Memory {
    pub fn new() -> Memory {
        let mut rng = Rng::new(1, u64::MAX - 5);
        Memory {
            network: [(); 4].map(|_| Slot::new(SLOT)),
            lists: [(); LISTS].map(|_| Slot::new(ROOM)),
            sheets: [(); SHEETS].map(|_| Sheet::new(ROOM)),
            count: Sheet::new(SLOT),
            pool: (0..ROOM / 8).flat_map(|_| rng.next().to_ne_bytes()).collect(),
            turn: 0,
        }
    }

    pub fn fill_network(&mut self, site: &Site) {
        for (slot, bytes) in self.network.iter_mut().zip(site.lent.slices()) {
            slot.fill(bytes);
        }
    }

    /// Lays out everything but the network.
    pub fn fill(&mut self, ask: &Ask) {
        for (slot, (_, words)) in self.lists.iter_mut().zip(ask.lists()) {
            slot.fill(words.bytes());
        }
        let sheets = ask.export().sheets();
        for (sheet, (&(_, size), room)) in self.sheets.iter_mut().zip(sheets.iter().zip(ask.rooms))
        {
            self.turn = self.turn.wrapping_add(7919);
            sheet.fill(&self.pool, self.turn, size * room, ask.behind);
        }
        self.count.fill(&self.pool, self.turn, 8, ask.behind);
    }

    /// Tells the watch what the next call is lent.
    #[cfg(target_os = "linux")]
    pub fn watch(&self, ask: &Ask, index: u32, bits: u64) {
        let export = ask.export();
        let network = self.network.iter().take(if export.takes_network() { 4 } else { 0 });
        let lists = self.lists.iter().take(ask.lists().len());
        let slots = network.chain(lists).map(|slot| (slot.start() as usize, slot.length()));
        watch::note_call(export.name(), index as usize, bits, slots);
    }

    #[cfg(not(target_os = "linux"))]
    pub fn watch(&self, _ask: &Ask, _index: u32, _bits: u64) {}

    pub fn network(&self) -> &[Slot; 4] {
        &self.network
    }

    /// The further slices; those that the call does not take hold what they held.
    pub fn lists(&self) -> &[Slot; LISTS] {
        &self.lists
    }

    /// Where an output starts.
    pub fn sheet<T>(&self, sheet: usize) -> *mut T {
        self.sheets[sheet].start() as *mut T
    }

    pub fn count(&self) -> *mut usize {
        self.count.start() as *mut usize
    }

    /// What an output held before the call.
    pub fn before(&self, sheet: usize) -> &[u8] {
        self.sheets[sheet].before(&self.pool)
    }

    /// What is due and what is there instead, after a call with this answer.
    pub fn difference(
        &self,
        site: &Site,
        ask: &Ask,
        due: &Due,
        answer: u64,
    ) -> Option<(String, String)> {
        if answer != due.answer && due.also != Some(answer) {
            return Some((format!("answer {}", due.answer), format!("answer {}", answer)));
        }
        let count = due.count.map(|count| count.to_ne_bytes());
        let front = count.as_ref().map_or(&[][..], |bytes| &bytes[..]);
        let counted = self.count.difference("count", 8, front, &self.pool);
        counted.or_else(|| self.sheets_difference(ask, due)).or_else(|| self.moved(site, ask))
    }

    fn sheets_difference(&self, ask: &Ask, due: &Due) -> Option<(String, String)> {
        let sheets = self.sheets.iter().zip(ask.export().sheets()).enumerate();
        for (place, (sheet, &(name, size))) in sheets {
            let front = due.fronts.get(place).map_or(&[][..], Words::bytes);
            let found = sheet.difference(name, size, front, &self.pool);
            if found.is_some() {
                return found;
            }
        }
        None
    }

    /// The first slice that no call may write and that moved.
    fn moved(&self, site: &Site, ask: &Ask) -> Option<(String, String)> {
        let of_network = self.network.iter().zip(SLICE_NAMES.iter().zip(site.lent.slices()));
        let network = of_network.filter(|_| ask.export().takes_network());
        let network = network.map(|(slot, (&name, bytes))| (name, slot.bytes() == bytes));
        let lists = ask.lists();
        let lists = self.lists.iter().zip(&lists);
        let lists = lists.map(|(slot, (name, words))| (*name, slot.bytes() == words.bytes()));
        let moved = network.chain(lists).find(|(_, kept)| !kept)?;
        Some((format!("{} unchanged", moved.0), "it moved".to_string()))
    }
}
