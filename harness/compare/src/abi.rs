//! The exports on memory whose every byte is watched.
//!
//! An input slice ends where the next page may not be read. An output is lent from the
//! middle of a buffer of random bytes, so that a byte written outside its place shows.

use crate::paper::{self, Lent};
use crate::random::Rng;

#[cfg(target_os = "linux")]
use crate::watch;

/// A lent input slice, as an export takes it.
#[derive(Clone, Copy)]
pub struct In {
    at: *const u8,
    length: usize,
}

/// A lent output slice.
#[derive(Clone, Copy)]
pub struct Out {
    at: *mut u8,
    length: usize,
}

#[derive(Clone, Copy)]
pub struct Network {
    wiring: In,
    readings: In,
    term_index: In,
    term_coefficient: In,
}

/// Calls an export on a network and further arguments.
macro_rules! call {
    ($export:ident, $net:expr $(, $argument:expr)*) => {
        // The memory behind each slice is a `Memory`'s, alive and of at least that length.
        unsafe {
            exports::$export(
                $net.wiring.at,
                $net.wiring.length,
                $net.readings.at,
                $net.readings.length,
                $net.term_index.at,
                $net.term_index.length,
                $net.term_coefficient.at,
                $net.term_coefficient.length
                $(, $argument)*
            )
        }
    };
}

pub fn network_number(net: Network) -> u64 {
    broken::limit(net, call!(capi_network_number, net))
}

pub fn shed_cap(net: Network, bus: usize, out: Out) -> u64 {
    call!(capi_shed_cap, net, bus, out.at, out.length)
}

pub fn current_flow_offset(net: Network, branch: usize, out: Out) -> u64 {
    call!(capi_current_flow_offset, net, branch, out.at, out.length)
}

pub fn generator_cost(net: Network, generator: usize, power_bits: u64, out: Out) -> u64 {
    call!(capi_generator_cost, net, generator, power_bits, out.at, out.length)
}

pub fn evaluate(net: Network, row: usize, f: In, pg: In, out: Out) -> u64 {
    call!(capi_evaluate, net, row, f.at, f.length, pg.at, pg.length, out.at, out.length)
}

pub fn evaluate_terms(net: Network, terms: In, row: usize, f: In, pg: In, out: Out) -> u64 {
    let (w, r, t) = (net.wiring, net.readings, terms);
    // The memory behind each slice is a `Memory`'s, alive and of at least that length.
    let answer = unsafe {
        exports::capi_evaluate_terms(
            w.at, w.length, r.at, r.length, t.at, t.length, row, f.at, f.length, pg.at, pg.length,
            out.at, out.length,
        )
    };
    broken::record(terms, out, answer)
}

pub fn row_kind(net: Network, row: usize) -> u64 {
    call!(capi_row_kind, net, row)
}

pub fn phase_withdrawal(net: Network, out: Out) -> u64 {
    broken::count(call!(capi_phase_withdrawal, net, out.at, out.length))
}

pub fn network_withdrawal(net: Network, out: Out) -> u64 {
    call!(capi_network_withdrawal, net, out.at, out.length)
}

pub fn current_fixed_withdrawal(net: Network, out: Out) -> u64 {
    broken::word(out, call!(capi_current_fixed_withdrawal, net, out.at, out.length))
}

pub fn susceptance_coo(net: Network, rows: Out, cols: Out, values: Out) -> u64 {
    let (r, c, v) = (rows, cols, values);
    let answer = call!(capi_susceptance_coo, net, r.at, r.length, c.at, c.length, v.at, v.length);
    broken::sign(rows, cols, values, answer)
}

pub fn snap(net: Network, solution: In, out: Out) -> u64 {
    let s = solution;
    let answer = call!(capi_snap, net, s.at, s.length, out.at, out.length);
    broken::snap(net, solution, out, answer)
}

pub fn snap_linear(net: Network, solution: In, out: Out) -> u64 {
    let s = solution;
    let answer = call!(capi_snap_linear, net, s.at, s.length, out.at, out.length);
    broken::snap_linear(net, solution, out, answer)
}

pub fn nu_flow_values(net: Network, solution: In, out: Out) -> u64 {
    let s = solution;
    let answer = call!(capi_nu_flow_values, net, s.at, s.length, out.at, out.length);
    broken::nu_flow(net, out, answer)
}

pub fn kkt_triplets(net: Network, solution: In, rows: Out, cols: Out, values: Out) -> u64 {
    let (s, r, c, v) = (solution, rows, cols, values);
    let answer = call!(
        capi_kkt_triplets,
        net,
        s.at,
        s.length,
        r.at,
        r.length,
        c.at,
        c.length,
        v.at,
        v.length
    );
    let answer = broken::tail(net, solution, answer);
    broken::reference(net, rows, cols, broken::fit(values, answer))
}

pub mod program;

/// Deliberately wrong answers, one a feature. Without features each passes its answer on.
mod broken {
    use super::{In, Network, Out};
    use crate::calls::Site;
    use crate::paper::{self, doubles, tolerance, Block, Count, Field, Lent, Wire};

    pub fn site(net: Network) -> Site {
        let bytes = |lent: In| unsafe { lent.bytes() }.to_vec();
        Site::new(Lent {
            wiring: bytes(net.wiring),
            readings: bytes(net.readings),
            term_index: bytes(net.term_index),
            term_coefficient: bytes(net.term_coefficient),
        })
    }

    /// The first triplet off the diagonal gets the wrong sign.
    pub fn sign(rows: Out, cols: Out, values: Out, answer: u64) -> u64 {
        if cfg!(feature = "broken_sign") && answer % 256 == 0 {
            let triplets = (answer / 256) as usize;
            let (rows, cols, values) = unsafe { (rows.bytes(), cols.bytes(), values.bytes()) };
            let off = (0..triplets)
                .find(|&place| rows[4 * place..4 * place + 4] != cols[4 * place..4 * place + 4]);
            if let Some(place) = off {
                values[8 * place + 7] ^= 0x80;
            }
        }
        answer
    }

    /// 513 branches pass.
    pub fn limit(net: Network, answer: u64) -> u64 {
        if cfg!(feature = "broken_limit") && answer == 1 && net.wiring.length >= 8 {
            let wiring = unsafe { net.wiring.bytes() };
            if paper::word(wiring, 1) == 513 {
                return 0;
            }
        }
        answer
    }

    /// A short sheet's first word moves.
    pub fn word(out: Out, answer: u64) -> u64 {
        if cfg!(feature = "broken_word") && answer == 7 && out.length >= 8 {
            let bytes = unsafe { out.bytes() };
            bytes[0] ^= 1;
        }
        answer
    }

    /// An accepted call counts one too many.
    pub fn count(answer: u64) -> u64 {
        if cfg!(feature = "broken_count") && answer % 256 == 0 {
            return answer + 256;
        }
        answer
    }

    /// A slice of records with some bytes more is taken for a whole one.
    pub fn record(terms: In, out: Out, answer: u64) -> u64 {
        if cfg!(feature = "broken_record") && answer == 1 && terms.length % 12 != 0 && out.length >= 8 {
            return 256;
        }
        answer
    }

    /// An angle's dual is dropped where its slack is the tolerance itself.
    pub fn snap(net: Network, solution: In, out: Out, answer: u64) -> u64 {
        if cfg!(feature = "broken_snap") && answer % 256 == 0 {
            let site = site(net);
            let words = doubles(unsafe { solution.bytes() });
            let va = &words[site.shape().blocks.range(Block::Va)];
            let dual = site.shape().blocks.range(Block::GammaUb).start;
            for e in 0..site.shape().count(Count::Branches) {
                let (i, j) = (site.wire(Wire::BrFrom, e), site.wire(Wire::BrTo, e));
                let slack = site.reading(Field::Angmax, e) - (va[i as usize] - va[j as usize]);
                if slack == tolerance() {
                    let bytes = unsafe { out.bytes() };
                    bytes[8 * (dual + e)..8 * (dual + e) + 8].fill(0);
                }
            }
        }
        answer
    }

    /// An upper limit's dual is dropped where its slack is the tolerance itself.
    pub fn snap_linear(net: Network, solution: In, out: Out, answer: u64) -> u64 {
        if cfg!(feature = "broken_snap_linear") && answer % 256 == 0 {
            let site = site(net);
            let words = doubles(unsafe { solution.bytes() });
            let blocks = &site.shape().blocks;
            let (f, pg) = (&words[blocks.range(Block::F)], &words[blocks.range(Block::Pg)]);
            for row in 0..site.shape().count(Count::Rows) {
                let limit = site.reading(Field::UpperMw, row) / site.reading(Field::Base, 0);
                let inequality = matches!(site.oracle().row_kind(row), 1 | 3);
                if inequality && limit - site.oracle().evaluate(row, f, pg) == tolerance() {
                    let bytes = unsafe { out.bytes() };
                    bytes[24 * row..24 * row + 8].fill(0);
                }
            }
        }
        answer
    }

    /// The last branch's dual is one double off where a row weighs the branch.
    pub fn nu_flow(net: Network, out: Out, answer: u64) -> u64 {
        if cfg!(feature = "broken_nu_flow") && answer % 256 == 0 && answer > 0 {
            let site = site(net);
            let last = site.shape().count(Count::Branches) - 1;
            let kinds = paper::term_kinds(&site.lent, site.shape());
            let weighed = |place: usize| paper::word(&site.lent.term_index, place) as usize == last;
            let flows = |place: usize| kinds[place] == Count::Branches && weighed(place);
            if (0..kinds.len()).any(flows) {
                let bytes = unsafe { out.bytes() };
                bytes[8 * last] ^= 1;
            }
        }
        answer
    }

    /// The matrix looks at the sheet's last word.
    pub fn tail(net: Network, solution: In, answer: u64) -> u64 {
        if cfg!(feature = "broken_tail") && answer % 256 == 0 && net.wiring.length > 0 {
            let words = doubles(unsafe { solution.bytes() });
            if words.last().map_or(false, |x| !x.is_finite()) {
                return 3;
            }
        }
        answer
    }

    /// A matrix that fills its values exactly doesn't fit.
    pub fn fit(values: Out, answer: u64) -> u64 {
        if cfg!(feature = "broken_fit") && answer == 32 * values.length as u64 && answer > 0 {
            return 7;
        }
        answer
    }

    /// A reference listed twice has its entry at its last place.
    pub fn reference(net: Network, rows: Out, cols: Out, answer: u64) -> u64 {
        if cfg!(feature = "broken_reference") && answer % 256 == 0 {
            let site = site(net);
            let starts = site.oracle().block_starts();
            let places = site.shape().count(Count::References);
            let bus = |place: usize| site.wire(Wire::References, place) as usize;
            let (rows, cols) = unsafe { (rows.bytes(), cols.bytes()) };
            for triplet in 0..(answer / 256) as usize {
                let (row, col) = (paper::word(rows, triplet), paper::word(cols, triplet));
                let (row, col) = (row as usize, col as usize);
                if row >= starts.eta && col < starts.va + site.shape().count(Count::Buses) {
                    let last = (0..places).rev().find(|&place| bus(place) == col - starts.va);
                    let last = last.map_or(row, |place| starts.eta + place);
                    paper::set_word(rows, triplet, last as u32);
                }
            }
        }
        answer
    }
}

impl In {
    /// The lent bytes. The memory must be a `Memory`'s.
    unsafe fn bytes<'a>(self) -> &'a [u8] {
        std::slice::from_raw_parts(self.at, self.length)
    }
}

impl Out {
    /// The lent bytes. The memory must be a `Memory`'s and not borrowed elsewhere.
    unsafe fn bytes<'a>(self) -> &'a mut [u8] {
        std::slice::from_raw_parts_mut(self.at, self.length)
    }
}

/// The greatest input slice in bytes; no network drawn comes near it.
pub const SLOT: usize = 1 << 18;
/// At least one page of any machine.
const GUARD_PAGE: usize = 1 << 16;
/// Bytes before and after a lent output.
pub const GUARD: usize = 64;
/// The matrix of the greatest network has at most 27,552 triplets, its program fewer.
const POOL: usize = 1 << 18;

/// Memory for one input slice, which always ends at its end.
struct Slot {
    end: *mut u8,
    length: usize,
}

/// The end of `SLOT` bytes, behind which nothing may be touched.
pub fn guarded_end() -> *mut u8 {
    guarded_end_of(SLOT)
}

/// The same of this many bytes.
pub fn guarded_end_of(size: usize) -> *mut u8 {
    #[cfg(target_os = "linux")]
    let start = watch::guarded(size, GUARD_PAGE);
    #[cfg(not(target_os = "linux"))]
    let start = Box::leak(vec![0u8; size + GUARD_PAGE].into_boxed_slice()).as_mut_ptr();
    unsafe { start.add(size) }
}

impl Slot {
    fn new() -> Slot {
        Slot { end: guarded_end(), length: 0 }
    }

    fn fill(&mut self, bytes: &[u8]) {
        assert!(bytes.len() <= SLOT, "an input slice has its place in a slot");
        self.length = bytes.len();
        unsafe { std::ptr::copy_nonoverlapping(bytes.as_ptr(), self.start(), bytes.len()) };
    }

    fn start(&self) -> *mut u8 {
        unsafe { self.end.sub(self.length) }
    }

    fn lend(&self) -> In {
        In { at: self.start(), length: self.length }
    }

    fn holds(&self, bytes: &[u8]) -> bool {
        unsafe { std::slice::from_raw_parts(self.start(), self.length) == bytes }
    }
}

/// A buffer with one lent output in its middle.
struct Sheet {
    buffer: Vec<u8>,
    length: usize,
    /// Where in the pool its first contents stand.
    from: usize,
}

impl Sheet {
    fn lend(&mut self) -> Out {
        Out { at: unsafe { self.buffer.as_mut_ptr().add(GUARD) }, length: self.length }
    }
}

const LISTS: usize = 2;
const SHEETS: usize = 9;

/// All memory that calls are lent.
pub struct Memory {
    network: [Slot; 4],
    /// The network's terms once more, as records.
    records: Slot,
    lists: [Slot; LISTS],
    sheets: [Sheet; SHEETS],
    pool: Vec<u8>,
}

impl Memory {
    pub fn new(seed: u64) -> Memory {
        let mut rng = Rng::new(seed, u64::MAX);
        let pool = (0..POOL / 8).flat_map(|_| rng.next().to_le_bytes()).collect();
        let sheet = |_| Sheet { buffer: Vec::with_capacity(POOL), length: 0, from: 0 };
        Memory {
            network: [Slot::new(), Slot::new(), Slot::new(), Slot::new()],
            records: Slot::new(),
            lists: [Slot::new(), Slot::new()],
            sheets: [(); SHEETS].map(sheet),
            pool,
        }
    }

    pub fn fill_network(&mut self, lent: &Lent) {
        for (slot, bytes) in self.network.iter_mut().zip(lent.slices()) {
            slot.fill(bytes);
        }
        self.records.fill(&paper::records(lent));
    }

    pub fn fill_list(&mut self, list: usize, bytes: &[u8]) {
        self.lists[list].fill(bytes);
    }

    /// Fills a sheet of this many bytes, and its surroundings, from the pool.
    pub fn fill_sheet(&mut self, sheet: usize, length: usize, rng: &mut Rng) {
        let whole = length + 2 * GUARD;
        let from = rng.below(POOL - whole);
        let sheet = &mut self.sheets[sheet];
        sheet.buffer.clear();
        sheet.buffer.extend_from_slice(&self.pool[from..from + whole]);
        sheet.length = length;
        sheet.from = from;
    }

    pub fn network(&self) -> Network {
        Network {
            wiring: self.network[0].lend(),
            readings: self.network[1].lend(),
            term_index: self.network[2].lend(),
            term_coefficient: self.network[3].lend(),
        }
    }

    pub fn records(&self) -> In {
        self.records.lend()
    }

    pub fn list(&self, list: usize) -> In {
        self.lists[list].lend()
    }

    pub fn sheet(&mut self, sheet: usize) -> Out {
        self.sheets[sheet].lend()
    }

    pub fn program_sheets(&mut self) -> program::Sheets {
        let mut sheets = self.sheets.iter_mut();
        [(); SHEETS].map(|_| sheets.next().expect("as many as there are").lend())
    }

    /// The first network slice that no longer holds its bytes.
    pub fn moved_network(&self, lent: &Lent) -> Option<usize> {
        let slices = lent.slices();
        (0..4).find(|&place| !self.network[place].holds(slices[place]))
    }

    pub fn list_moved(&self, list: usize, bytes: &[u8]) -> bool {
        !self.lists[list].holds(bytes)
    }

    /// What was written to the front of a sheet.
    pub fn front(&self, sheet: usize, length: usize) -> &[u8] {
        &self.sheets[sheet].buffer[GUARD..GUARD + length]
    }

    /// The first byte outside the front that moved, counted from the sheet's start.
    pub fn stray(&self, sheet: usize, front: usize) -> Option<isize> {
        let sheet = &self.sheets[sheet];
        let before = &self.pool[sheet.from..sheet.from + sheet.buffer.len()];
        let rest = GUARD + front;
        if sheet.buffer[..GUARD] == before[..GUARD] && sheet.buffer[rest..] == before[rest..] {
            return None;
        }
        let moved = (0..sheet.buffer.len())
            .filter(|&place| place < GUARD || place >= rest)
            .find(|&place| sheet.buffer[place] != before[place]);
        moved.map(|place| place as isize - GUARD as isize)
    }

    /// Tells the watch which memory the next call is lent.
    #[cfg(target_os = "linux")]
    pub fn watch(&self, name: &'static str, index: usize, bits: u64) {
        let slots = self.network.iter().chain([&self.records]).chain(&self.lists);
        watch::note_call(name, index, bits, slots.map(|slot| (slot.start() as usize, slot.length)));
    }

    #[cfg(not(target_os = "linux"))]
    pub fn watch(&self, _name: &'static str, _index: usize, _bits: u64) {}
}
