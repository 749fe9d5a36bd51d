//! The export for parameter columns, on memory whose every byte is watched.

use crate::abi::{GUARD, SLOT};
use crate::calls::{same, Site};
use crate::paper::{bytes_of_words, double, SLICE_NAMES};
use crate::parameters::Ask;
use crate::random::Rng;
use crate::slot::Slot;

#[cfg(target_os = "linux")]
use crate::watch;

pub const NAME: &str = "parameter_jacobian";

/// The most bytes of a list of columns and of a sheet.
pub const ROOM: usize = 1 << 22;

const INPUTS: [&str; 6] =
    [SLICE_NAMES[0], SLICE_NAMES[1], SLICE_NAMES[2], SLICE_NAMES[3], "solution", "columns"];

/// All memory that a call is lent: its inputs, and the sheet with bytes before it and, for some
/// calls, behind it.
pub struct Memory {
    inputs: [Slot; 6],
    sheet: Slot,
    behind: usize,
    /// Where in the pool the sheet's first contents stand.
    from: usize,
    pool: Vec<u8>,
}

impl Memory {
    pub fn new() -> Memory {
        let mut rng = Rng::new(1, u64::MAX - 2);
        let slot = || Slot::new(SLOT);
        Memory {
            inputs: [slot(), slot(), slot(), slot(), slot(), Slot::new(ROOM)],
            sheet: Slot::new(ROOM),
            behind: 0,
            from: 0,
            pool: (0..ROOM / 8).flat_map(|_| rng.next().to_le_bytes()).collect(),
        }
    }

    pub fn fill_network(&mut self, site: &Site) {
        for (slot, bytes) in self.inputs.iter_mut().zip(site.lent.slices()) {
            slot.fill(bytes);
        }
    }

    fn fill(&mut self, ask: &Ask) {
        self.inputs[4].fill(&ask.solution);
        self.inputs[5].fill(&bytes_of_words(&ask.columns));
        self.behind = if ask.behind { GUARD } else { 0 };
        let whole = GUARD + 8 * ask.sheet + self.behind;
        let places = (self.pool.len() - whole) / 8 + 1;
        self.from = 8 * (ask.columns.len().wrapping_mul(7919).wrapping_add(ask.sheet) % places);
        let (from, pool) = (self.from, &self.pool);
        self.sheet.fill(&pool[from..from + whole]);
    }

    /// Makes the call on the network that is lent.
    pub fn call(&mut self, site: &Site, ask: &Ask) -> u32 {
        self.fill(ask);
        #[cfg(target_os = "linux")]
        {
            let slots = self.inputs.iter().map(|slot| (slot.start() as usize, slot.length()));
            watch::note_call(NAME, ask.parameter as usize, ask.sheet as u64, slots);
        }
        let [wiring, readings, term_index, term_coefficient, solution, columns] = &self.inputs;
        let sheet = unsafe { self.sheet.start().add(GUARD) };
        // The memory behind each slice is a slot's, alive, aligned and of that length.
        let answer = unsafe {
            exports::sens_parameter_jacobian(
                wiring.start() as _,
                wiring.length() / 4,
                readings.start() as _,
                readings.length() / 8,
                term_index.start() as _,
                term_index.length() / 4,
                term_coefficient.start() as _,
                term_coefficient.length() / 8,
                solution.start() as _,
                solution.length() / 8,
                ask.parameter,
                columns.start() as _,
                columns.length() / 4,
                sheet as _,
                ask.sheet,
            )
        };
        let words = unsafe { std::slice::from_raw_parts_mut(sheet as *mut f64, ask.sheet) };
        broken::answer(site, ask, words, answer)
    }

    /// What is due and what is there instead, after a call that puts these words at the front.
    pub fn difference(&self, site: &Site, ask: &Ask, front: &[f64]) -> Option<(String, String)> {
        let got = self.sheet.bytes();
        let due = &self.pool[self.from..self.from + got.len()];
        let words = &got[GUARD..];
        if let Some(place) = (0..front.len()).find(|&at| !same(front[at], double(words, at))) {
            let show = |x: f64| format!("{:016x} ({:e})", x.to_bits(), x);
            let dim = front.len() / ask.columns.len();
            let (column, row) = (place / dim, place % dim);
            let of = format!("word {} of column {} (of {}) is ", row, column, ask.columns[column]);
            return Some((of + &show(front[place]), show(double(words, place))));
        }
        let rest = GUARD + 8 * front.len();
        if got[..GUARD] != due[..GUARD] || got[rest..] != due[rest..] {
            let outside = (0..got.len()).filter(|&at| at < GUARD || at >= rest);
            let place = outside.into_iter().find(|&at| got[at] != due[at]).unwrap_or(0);
            let kept = format!("the sheet unchanged but for its first {} words", front.len());
            return Some((kept, format!("byte {} moved", place as isize - GUARD as isize)));
        }
        let columns = bytes_of_words(&ask.columns);
        let [wiring, readings, term_index, term_coefficient] = site.lent.slices();
        let lent = [wiring, readings, term_index, term_coefficient, &ask.solution, &columns];
        let moved = (0..INPUTS.len()).find(|&at| self.inputs[at].bytes() != lent[at])?;
        Some((format!("{} unchanged", INPUTS[moved]), "it moved".to_string()))
    }
}

/// Deliberately wrong answers, one a feature. Without features the answer is passed on.
mod broken {
    use crate::calls::Site;
    use crate::parameters::rules::{self, SWITCHING};
    use crate::parameters::Ask;

    pub fn answer(site: &Site, ask: &Ask, sheet: &mut [f64], answer: u32) -> u32 {
        if answer == 0 {
            let dim = rules::dim(site);
            let front = ask.columns.len() * dim;
            sign(ask, &mut sheet[..front]);
            shift(dim, &mut sheet[..front]);
            tail(&mut sheet[front..]);
        }
        piecewise(site, ask, answer)
    }

    /// The last entry of switching that isn't zero gets the wrong sign.
    fn sign(ask: &Ask, front: &mut [f64]) {
        if cfg!(feature = "broken_column_sign") && ask.parameter == SWITCHING {
            if let Some(entry) = front.iter_mut().rev().find(|entry| **entry != 0.0) {
                *entry = -*entry;
            }
        }
    }

    /// Each column stands where the one before it belongs.
    fn shift(dim: usize, front: &mut [f64]) {
        if cfg!(feature = "broken_column_shift") && !front.is_empty() {
            front.rotate_left(dim);
        }
    }

    /// The last word after the columns moves.
    fn tail(rest: &mut [f64]) {
        if cfg!(feature = "broken_column_tail") {
            if let Some(word) = rest.last_mut() {
                *word = f64::from_bits(word.to_bits() ^ 1);
            }
        }
    }

    /// A piecewise cost is refused before an element that isn't there.
    fn piecewise(site: &Site, ask: &Ask, answer: u32) -> u32 {
        if cfg!(feature = "broken_piecewise_first") && answer == 5 {
            if rules::held(site, ask).has(6) {
                return 6;
            }
        }
        answer
    }
}
