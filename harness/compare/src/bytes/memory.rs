//! All memory that a call on bytes is lent, every byte of which is watched.

use crate::abi::SLOT;
use crate::bytes::call::{Ask, Export, SHEETS};
use crate::bytes::expect::Due;
use crate::calls::{same, Site};
use crate::paper::{double, doubles, set_bits, SLICE_NAMES};
use crate::random::Rng;
use crate::sensitivity::memory::Sheet;
use crate::slot::Slot;

#[cfg(target_os = "linux")]
use crate::watch;

/// The most bytes of a further slice and of an output.
const ROOM: usize = 1 << 17;
/// Bytes that an output may have, so that it has its place.
pub const MOST_BYTES: usize = ROOM - 512;
/// The most further slices of an export.
const LISTS: usize = 4;

pub struct Memory {
    network: [Slot; 4],
    lists: [Slot; LISTS],
    sheets: [Sheet; SHEETS],
    pool: Vec<u8>,
    turn: usize,
}

/// A slice as an export takes it.
#[derive(Clone, Copy)]
pub struct Lent {
    pub at: *mut u8,
    pub length: usize,
}

impl Memory {
    pub fn new() -> Memory {
        let mut rng = Rng::new(1, u64::MAX - 6);
        Memory {
            network: [(); 4].map(|_| Slot::new(SLOT)),
            lists: [(); LISTS].map(|_| Slot::new(ROOM)),
            sheets: [(); SHEETS].map(|_| Sheet::new(ROOM)),
            pool: (0..ROOM / 8).flat_map(|_| rng.next().to_ne_bytes()).collect(),
            turn: 0,
        }
    }

    pub fn fill_network(&mut self, site: &Site) {
        for (slot, bytes) in self.network.iter_mut().zip(site.lent.slices()) {
            slot.fill(bytes);
        }
    }

    /// Lays out everything but the network, and tells the watch of it.
    pub fn fill(&mut self, ask: &Ask) {
        let lists = ask.lists();
        for (slot, list) in self.lists.iter_mut().zip(&lists) {
            slot.fill(list.bytes);
        }
        for (sheet, room) in self.sheets.iter_mut().zip(ask.rooms) {
            self.turn = self.turn.wrapping_add(7919);
            sheet.fill(&self.pool, self.turn, room, ask.behind);
        }
        #[cfg(target_os = "linux")]
        {
            let network =
                self.network.iter().take(if ask.export().takes_network() { 4 } else { 0 });
            let slots = network.chain(self.lists.iter().take(lists.len()));
            let slots = slots.map(|slot| (slot.start() as usize, slot.length()));
            watch::note_call(ask.export().name(), 0, 0, slots);
        }
    }

    pub fn network(&self) -> [Lent; 4] {
        [0, 1, 2, 3].map(|slice| lend(&self.network[slice]))
    }

    /// A further slice.
    pub fn list(&self, list: usize) -> Lent {
        lend(&self.lists[list])
    }

    /// An output.
    pub fn sheet(&self, sheet: usize) -> Lent {
        let sheet = &self.sheets[sheet];
        Lent { at: sheet.start(), length: sheet.bytes().len() }
    }

    /// What is due and what is there instead, after a call with this answer.
    pub fn difference(
        &self,
        site: &Site,
        ask: &Ask,
        due: &Due,
        answer: u64,
    ) -> Option<(String, String)> {
        if answer != due.answer && due.also != Some(answer) {
            let show = |answer: u64| match ask.export() {
                Export::RightSide => format!("{} words", answer),
                _ => format!("number {}, count {}", answer % 256, answer / 256),
            };
            return Some((show(due.answer), show(answer)));
        }
        self.sheets_difference(ask, due).or_else(|| self.moved(site, ask))
    }

    fn sheets_difference(&self, ask: &Ask, due: &Due) -> Option<(String, String)> {
        let sheets = self.sheets.iter().zip(ask.export().sheets()).enumerate();
        for (place, (sheet, &(name, size))) in sheets {
            let mut front = due.fronts.get(place).cloned().unwrap_or_default();
            match ask.export() {
                Export::ParameterJacobian => settle(&mut front, sheet.bytes(), same),
                Export::RightSide => settle(&mut front, sheet.bytes(), both_nan),
                _ => {}
            }
            let found = sheet.difference(name, size, &front, &self.pool);
            if found.is_some() {
                return found;
            }
        }
        None
    }

    /// The first slice that no call may write and that moved.
    fn moved(&self, site: &Site, ask: &Ask) -> Option<(String, String)> {
        let of_network = self.network.iter().zip(SLICE_NAMES.iter().zip(site.lent.slices()));
        let network = of_network.filter(|_| ask.export().takes_network());
        let network = network.map(|(slot, (&name, bytes))| (name, slot.bytes() == bytes));
        let lists = ask.lists();
        let lists = self.lists.iter().zip(&lists);
        let lists = lists.map(|(slot, list)| (list.name, slot.bytes() == list.bytes));
        let moved = network.chain(lists).find(|(_, kept)| !kept)?;
        Some((format!("{} unchanged", moved.0), "it moved".to_string()))
    }
}

fn lend(slot: &Slot) -> Lent {
    Lent { at: slot.start(), length: slot.length() }
}

/// Takes words that are as good as those that are due as they came.
fn settle(front: &mut [u8], got: &[u8], as_good: fn(f64, f64) -> bool) {
    for (place, x) in doubles(front).into_iter().enumerate() {
        let came = double(got, place);
        if as_good(x, came) {
            set_bits(front, place, came.to_bits());
        }
    }
}

/// A sheet's NaN comes back from bytes as any NaN.
fn both_nan(due: f64, got: f64) -> bool {
    due.is_nan() && got.is_nan()
}
