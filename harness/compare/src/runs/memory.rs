//! Memory that the calls of a run are lent: it keeps what a call leaves for the next one.
//!
//! Each slice stands between canaries. Behind those that follow it, or right behind the slice
//! where none do, is a page that may not be touched.

use crate::abi::{guarded_end, GUARD, SLOT};
use crate::paper::{bytes_of_words, double, word, SLICE_NAMES};
use crate::runs::draw::Scenario;

/// Memory for one slice.
pub struct Region {
    end: *mut u8,
    length: usize,
    behind: usize,
}

const fn canaries() -> [u8; GUARD] {
    let mut bytes = [0; GUARD];
    let mut place = 0;
    while place < GUARD {
        bytes[place] = (place as u8).wrapping_mul(151).wrapping_add(90);
        place += 1;
    }
    bytes
}

static CANARIES: [u8; GUARD] = canaries();

impl Region {
    fn new() -> Region {
        Region { end: guarded_end(), length: 0, behind: 0 }
    }

    /// Lays the bytes with canaries before them and, of 0 or `GUARD`, so many behind them:
    /// a slice of whole words is aligned.
    fn fill(&mut self, bytes: &[u8], behind: usize) {
        assert!(bytes.len() + GUARD + behind <= SLOT, "a slice has its place in a region");
        self.length = bytes.len();
        self.behind = behind;
        let lay = |bytes: &[u8], at: *mut u8| unsafe {
            std::ptr::copy_nonoverlapping(bytes.as_ptr(), at, bytes.len());
        };
        lay(bytes, self.start());
        lay(&CANARIES, self.start().wrapping_sub(GUARD));
        lay(&CANARIES[..behind], self.end.wrapping_sub(behind));
    }

    pub fn start(&self) -> *mut u8 {
        unsafe { self.end.sub(self.behind + self.length) }
    }

    /// Bytes of the slice.
    pub fn length(&self) -> usize {
        self.length
    }

    pub fn bytes(&self) -> &[u8] {
        unsafe { std::slice::from_raw_parts(self.start(), self.length) }
    }

    /// Whether the canaries before and behind the slice are as they were laid.
    fn canaries_hold(&self) -> bool {
        unsafe {
            let before = std::slice::from_raw_parts(self.start().sub(GUARD), GUARD);
            let behind = std::slice::from_raw_parts(self.end.sub(self.behind), self.behind);
            before == CANARIES && behind == &CANARIES[..self.behind]
        }
    }

    /// What is due and what is there, at the first place where they differ.
    fn difference(&self, name: &str, size: usize, due: &[u8]) -> Option<(String, String)> {
        let got = self.bytes();
        if got != due {
            let place = (0..due.len()).find(|&at| got.get(at) != due.get(at)).unwrap_or(0) / size;
            let show = |bytes: &[u8]| match size {
                4 => word(bytes, place).to_string(),
                8 => format!("{:016x}", double(bytes, place).to_bits()),
                _ => bytes[place].to_string(),
            };
            return Some((format!("word {} of {} {}", place, name, show(due)), show(got)));
        }
        if self.canaries_hold() {
            return None;
        }
        Some((format!("bytes around {} unchanged", name), "one moved".to_string()))
    }
}

pub const SHEET_NAMES: [&str; 3] = ["rows", "cols", "values"];
const SHEET_SIZES: [usize; 3] = [4, 4, 8];

/// All memory of a run.
pub struct RunMemory {
    /// Wiring, readings, term indexes and term coefficients.
    pub network: [Region; 4],
    pub solution: Region,
    /// Rows, columns and values.
    pub sheets: [Region; 3],
    pub changes: Region,
    pub numbers: Region,
    pub counted: Region,
    /// Rows, columns and values of the matrix call.
    pub matrix: [Region; 3],
}

impl RunMemory {
    pub fn new() -> RunMemory {
        let three = || [Region::new(), Region::new(), Region::new()];
        RunMemory {
            network: [Region::new(), Region::new(), Region::new(), Region::new()],
            solution: Region::new(),
            sheets: three(),
            changes: Region::new(),
            numbers: Region::new(),
            counted: Region::new(),
            matrix: three(),
        }
    }

    /// Everything as at the start of a run.
    pub fn fill(&mut self, scenario: &Scenario) {
        let behind = scenario.behind;
        for (place, bytes) in scenario.lent.slices().into_iter().enumerate() {
            self.network[place].fill(bytes, if place == READINGS { behind } else { 0 });
        }
        self.solution.fill(&scenario.solution, 0);
        for (sheet, bytes) in self.sheets.iter_mut().zip(&scenario.sheets) {
            sheet.fill(bytes, behind);
        }
        self.changes.fill(&[], 0);
    }

    /// Changes to run in one call, and the two sheets for their numbers and counts.
    pub fn fill_changes(&mut self, changes: &[u32], numbers: &[u32], counted: &[u32]) {
        self.changes.fill(&bytes_of_words(changes), 0);
        self.numbers.fill(&bytes_of_words(numbers), GUARD);
        self.counted.fill(&bytes_of_words(counted), GUARD);
    }

    /// Room for a matrix of so many triplets.
    pub fn fill_matrix(&mut self, triplets: usize) {
        for (sheet, size) in self.matrix.iter_mut().zip(SHEET_SIZES) {
            sheet.fill(&vec![0; size * triplets], GUARD);
        }
    }

    /// The first slice that is not as the readings and sheets given say, or that no call may
    /// write and has moved.
    pub fn difference(
        &self,
        scenario: &Scenario,
        readings: &[u8],
        sheets: &[Vec<u8>; 3],
    ) -> Option<(String, String)> {
        let mut due = scenario.lent.slices();
        due[READINGS] = readings;
        let sizes = [4, 8, 4, 8];
        let network = (0..4).find_map(|at| {
            self.network[at].difference(SLICE_NAMES[at], whole(sizes[at], due[at]), due[at])
        });
        let solution = || {
            let size = whole(8, &scenario.solution);
            self.solution.difference("solution", size, &scenario.solution)
        };
        let lists = || {
            (0..3).find_map(|at| {
                self.sheets[at].difference(SHEET_NAMES[at], SHEET_SIZES[at], &sheets[at])
            })
        };
        network.or_else(solution).or_else(lists)
    }

    /// The same of the changes, numbers and counts of a run in one call.
    pub fn changes_difference(
        &self,
        changes: &[u32],
        numbers: &[u32],
        counted: &[u32],
    ) -> Option<(String, String)> {
        let of =
            |region: &Region, name, due: &[u32]| region.difference(name, 4, &bytes_of_words(due));
        of(&self.changes, "changes", changes)
            .or_else(|| of(&self.numbers, "numbers", numbers))
            .or_else(|| of(&self.counted, "counted", counted))
    }
}

/// The readings' place among a network's slices.
pub const READINGS: usize = 1;

/// The size of a slice's words, or a byte where it is not a whole number of them.
fn whole(size: usize, bytes: &[u8]) -> usize {
    if bytes.len() % size == 0 {
        size
    } else {
        1
    }
}

/// The first triplets of three slices.
pub fn triplets(sheets: &[Region; 3], count: usize) -> Vec<super::book::Triplet> {
    let [rows, cols, values] = sheets;
    let (rows, cols, values) = (rows.bytes(), cols.bytes(), values.bytes());
    let at = |place| (word(rows, place), word(cols, place), double(values, place).to_bits());
    (0..count).map(at).collect()
}
