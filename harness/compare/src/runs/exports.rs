//! The exports of site changes and the typed matrix call, on the memory of a run.

use crate::runs::memory::{Region, RunMemory};
use crate::runs::table::Change;

#[cfg(target_os = "linux")]
use crate::watch;

/// How one change is called.
#[derive(Clone, Copy, Debug, PartialEq, Eq)]
pub enum Way {
    /// On typed slices.
    Words,
    /// On bytes, with so many bytes more than whole words of rows, columns and values.
    Bytes([u8; 3]),
    /// On bytes, with so many bytes of one input slice missing: wiring, readings, term
    /// indexes, term coefficients or solution.
    Ragged(usize, u8),
}

/// Calls an export on typed slices: a run's network and solution, three sheets, and further
/// arguments.
macro_rules! call {
    ($export:ident, $memory:expr, $sheets:expr $(, $argument:expr)*) => {{
        let [wiring, readings, term_index, term_coefficient] = &$memory.network;
        let solution = &$memory.solution;
        let [rows, cols, values] = $sheets;
        // The memory behind each slice is a region's, alive and of that length.
        unsafe {
            exports::$export(
                wiring.start() as _,
                wiring.length() / 4,
                readings.start() as _,
                readings.length() / 8,
                term_index.start() as _,
                term_index.length() / 4,
                term_coefficient.start() as _,
                term_coefficient.length() / 8,
                solution.start() as _,
                solution.length() / 8,
                rows.start() as _,
                rows.length() / 4,
                cols.start() as _,
                cols.length() / 4,
                values.start() as _,
                values.length() / 8
                $(, $argument)*
            )
        }
    }};
}

fn by_words(memory: &RunMemory, change: Change) -> u64 {
    call!(site_change, memory, &memory.sheets, change.head, change.low, change.high)
}

/// On bytes: so many less of the five inputs, so many more of the three sheets.
fn by_bytes(memory: &RunMemory, change: Change, less: [usize; 5], more: [u8; 3]) -> u64 {
    let [wiring, readings, term_index, term_coefficient] = &memory.network;
    let solution = &memory.solution;
    let [rows, cols, values] = &memory.sheets;
    // A region has at least as many canaries behind it as bytes are lent more.
    unsafe {
        exports::capi_change(
            wiring.start(),
            wiring.length() - less[0],
            readings.start(),
            readings.length() - less[1],
            term_index.start(),
            term_index.length() - less[2],
            term_coefficient.start(),
            term_coefficient.length() - less[3],
            solution.start(),
            solution.length() - less[4],
            rows.start(),
            rows.length() + usize::from(more[0]),
            cols.start(),
            cols.length() + usize::from(more[1]),
            values.start(),
            values.length() + usize::from(more[2]),
            change.head,
            change.low,
            change.high,
        )
    }
}

/// Makes one change.
pub fn change(memory: &RunMemory, change: Change, way: Way) -> u64 {
    watch_call("change", memory, change.head as usize, change.bits());
    let before = broken::before(memory);
    let answer = match way {
        Way::Words => by_words(memory, change),
        Way::Bytes(more) => by_bytes(memory, change, [0; 5], more),
        Way::Ragged(slice, missing) => {
            let mut less = [0; 5];
            less[slice] = usize::from(missing);
            by_bytes(memory, change, less, [0; 3])
        }
    };
    let answer = broken::index(memory, change, answer);
    broken::kept_list(memory, &before, answer);
    broken::refused_word(memory, answer);
    broken::put_back(memory, change, answer);
    answer
}

/// Makes all changes that the memory holds; answers a number alone.
pub fn run_changes(memory: &RunMemory) -> u64 {
    watch_call("run_changes", memory, memory.changes.length() / 12, 0);
    let (changes, numbers, counted) = (&memory.changes, &memory.numbers, &memory.counted);
    let number = call!(
        site_run_changes,
        memory,
        &memory.sheets,
        changes.start() as _,
        changes.length() / 4,
        numbers.start() as _,
        numbers.length() / 4,
        counted.start() as _,
        counted.length() / 4
    );
    broken::counted(memory, number);
    u64::from(number)
}

/// What of a run's bytes is not lent, and what is lent besides.
#[derive(Clone, Copy, Debug, Default, PartialEq, Eq)]
pub struct Cut {
    /// Bytes missing of wiring, readings, term indexes, term coefficients and solution.
    pub inputs: [usize; 5],
    /// Bytes missing of the changes, the numbers and the counts.
    pub own: [usize; 3],
    /// Bytes more than whole words of the numbers and the counts.
    pub more: [usize; 2],
}

/// The same on bytes.
pub fn run_changes_by_bytes(memory: &RunMemory, cut: Cut) -> u64 {
    watch_call("run_changes", memory, memory.changes.length() / 12, 0);
    let [wiring, readings, term_index, term_coefficient] = &memory.network;
    let (solution, [rows, cols, values]) = (&memory.solution, &memory.sheets);
    let (changes, numbers, counted) = (&memory.changes, &memory.numbers, &memory.counted);
    // A region has at least as many canaries behind it as bytes are lent more.
    let number = unsafe {
        exports::capi_run_changes(
            wiring.start(),
            wiring.length() - cut.inputs[0],
            readings.start(),
            readings.length() - cut.inputs[1],
            term_index.start(),
            term_index.length() - cut.inputs[2],
            term_coefficient.start(),
            term_coefficient.length() - cut.inputs[3],
            solution.start(),
            solution.length() - cut.inputs[4],
            rows.start(),
            rows.length(),
            cols.start(),
            cols.length(),
            values.start(),
            values.length(),
            changes.start(),
            changes.length() - cut.own[0],
            numbers.start(),
            numbers.length() + cut.more[0] - cut.own[1],
            counted.start(),
            counted.length() + cut.more[1] - cut.own[2],
        )
    };
    broken::turn(memory, number);
    u64::from(number)
}

/// The matrix of the network as the memory holds it.
pub fn matrix(memory: &RunMemory) -> u64 {
    watch_call("kkt_triplets", memory, 0, 0);
    call!(sens_kkt_triplets, memory, &memory.matrix)
}

#[cfg(target_os = "linux")]
fn watch_call(name: &'static str, memory: &RunMemory, index: usize, bits: u64) {
    let slots = memory.network.iter().chain([&memory.solution, &memory.changes]);
    watch::note_call(name, index, bits, slots.map(|slot| (slot.start() as usize, slot.length())));
}

#[cfg(not(target_os = "linux"))]
fn watch_call(_name: &'static str, _memory: &RunMemory, _index: usize, _bits: u64) {}

/// Deliberately wrong answers, one a feature. Without features nothing is touched.
mod broken {
    use super::{by_words, Change, Region, RunMemory};
    use crate::calls::Site;
    use crate::paper::{double, set_bits, Lent};

    /// A region's bytes, which nothing else may borrow.
    unsafe fn bytes<'a>(region: &Region) -> &'a mut [u8] {
        std::slice::from_raw_parts_mut(region.start(), region.length())
    }

    fn site(memory: &RunMemory) -> Site {
        let [wiring, readings, term_index, term_coefficient] =
            [0, 1, 2, 3].map(|slice| memory.network[slice].bytes().to_vec());
        Site::new(Lent { wiring, readings, term_index, term_coefficient })
    }

    /// The sheets before a call.
    pub fn before(memory: &RunMemory) -> Vec<Vec<u8>> {
        let kept = cfg!(feature = "broken_kept_list");
        memory.sheets.iter().filter(|_| kept).map(|sheet| sheet.bytes().to_vec()).collect()
    }

    /// An accepted change is stored, but the old list stays.
    pub fn kept_list(memory: &RunMemory, before: &[Vec<u8>], answer: u64) {
        if cfg!(feature = "broken_kept_list") && answer % 256 == 0 {
            for (sheet, before) in memory.sheets.iter().zip(before) {
                unsafe { bytes(sheet) }.copy_from_slice(before);
            }
        }
    }

    /// A change refused for its value moves the last word of the columns.
    pub fn refused_word(memory: &RunMemory, answer: u64) {
        if cfg!(feature = "broken_refused_word") && answer == 3 {
            if let Some(last) = unsafe { bytes(&memory.sheets[1]) }.last_mut() {
                *last ^= 0x80;
            }
        }
    }

    /// Where a list doesn't fit, the old value is put back one place too far.
    pub fn put_back(memory: &RunMemory, change: Change, answer: u64) {
        if cfg!(feature = "broken_put_back") && answer == 7 {
            let site = site(memory);
            let place = change.place(site.shape()).expect("7 comes after 4 and 5");
            let readings = unsafe { bytes(&memory.network[1]) };
            let old = double(readings, place).to_bits();
            set_bits(readings, place, change.bits());
            if 8 * (place + 1) < readings.len() {
                set_bits(readings, place + 1, old);
            }
        }
    }

    /// An index past its field is taken modulo the field's length.
    pub fn index(memory: &RunMemory, change: Change, answer: u64) -> u64 {
        if cfg!(feature = "broken_index") && answer == 5 {
            let site = site(memory);
            let field = change.field().expect("5 comes after 4");
            let length = site.shape().field_range(field).len();
            if length > 0 {
                let index = (change.index() % length) as u32;
                let within = Change::new(change.kind(), index, change.value());
                return by_words(memory, within);
            }
        }
        answer
    }

    /// On bytes a run's last change is numbered by its count.
    pub fn turn(memory: &RunMemory, number: u32) {
        let changes = memory.changes.length() / 12;
        if cfg!(feature = "broken_turn") && number == 0 && changes > 0 {
            let (last, counts) = (4 * (changes - 1), memory.counted.bytes());
            let number = unsafe { bytes(&memory.numbers) };
            number[last..last + 4].copy_from_slice(&counts[last..last + 4]);
        }
    }

    /// A run's call writes a word past the last count.
    pub fn counted(memory: &RunMemory, number: u32) {
        let end = memory.changes.length() / 3;
        if cfg!(feature = "broken_counted") && number == 0 && memory.counted.length() > end {
            let bytes = unsafe { bytes(&memory.counted) };
            bytes[end] ^= 1;
        }
    }
}
