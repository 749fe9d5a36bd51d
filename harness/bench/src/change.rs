//! An accepted site change by the typed export and by the bytes' one, and a run of changes, beside the original
//! with the reading set in place: its system made anew, with its list.

use crate::case::{word_bytes, words, ByteLists, Case, WordLists};
use crate::timing::{side_by_side, Times};
use crate::{Form, Table};
use exports::{capi_change, capi_run_changes, site_change, site_run_changes};
use oracle::{Differentiable, Oracle, Solved, Triplets};
use std::hint::black_box;

/// Changes of a run, an even number of them: the next run then begins where the first did.
const RUN: usize = 16;

/// Kind 2, fmax, of the last branch: one value and another in turn, so that each call moves it.
struct Turns {
    branch: usize,
    made: usize,
}

impl Turns {
    fn of(case: &Case) -> Turns {
        Turns { branch: case.size.m - 1, made: 0 }
    }

    fn next(&mut self) -> f64 {
        self.made += 1;
        6.0 + (self.made % 2) as f64
    }

    fn words(&mut self) -> [u32; 3] {
        let bits = self.next().to_bits();
        [2 << 28 | self.branch as u32, bits as u32, (bits >> 32) as u32]
    }
}

/// The original's side: its network, which the changes are made to.
struct Changed<'a> {
    original: Oracle,
    solved: &'a Solved,
    turns: Turns,
    /// Triplets of its list after any change.
    count: usize,
}

impl Changed<'_> {
    fn of(case: &Case) -> Changed<'_> {
        let mut original = case.original.clone();
        let mut count = |fmax: f64| {
            original.set_fmax(case.size.m - 1, fmax);
            original.kkt_of(&case.solved).jacobian().len()
        };
        assert_eq!(count(7.0), count(6.0));
        let count = count(6.0);
        Changed { original, solved: &case.solved, turns: Turns::of(case), count }
    }

    /// One change, and the list of the network as it then stands.
    fn next(&mut self) -> Triplets {
        self.original.set_fmax(self.turns.branch, self.turns.next());
        self.original.kkt_of(black_box(self.solved)).jacobian()
    }
}

fn by_bytes(case: &Case) -> Times {
    let (net, s) = (&case.bytes, &case.sheet_bytes);
    let (mut readings, mut out) = (net.readings.clone(), ByteLists::of_bytes(case.most_triplets()));
    let (mut turns, mut changed) = (Turns::of(case), Changed::of(case));
    let due = 256 * changed.count as u64;
    let mut port = |out: &mut ByteLists| {
        let [head, low, high] = turns.words();
        let answer = unsafe {
            capi_change(
                net.wiring.as_ptr(), net.wiring.len(), readings.as_mut_ptr(), readings.len(),
                net.term_index.as_ptr(), net.term_index.len(),
                net.term_coefficient.as_ptr(), net.term_coefficient.len(), s.as_ptr(), s.len(),
                out.rows.as_mut_ptr(), out.rows.len(), out.cols.as_mut_ptr(), out.cols.len(),
                out.values.as_mut_ptr(), out.values.len(), head, low, high,
            )
        };
        assert_eq!(black_box(answer), due);
    };
    for _ in 0..2 {
        port(&mut out);
        out.hold(&changed.next());
    }
    side_by_side(
        || port(&mut out),
        || {
            black_box(changed.next());
        },
    )
}

fn by_words(case: &Case) -> Times {
    let (net, s) = (&case.words, &case.sheet);
    let (mut readings, mut out) = (net.readings.clone(), WordLists::of_words(case.most_triplets()));
    let (mut turns, mut changed) = (Turns::of(case), Changed::of(case));
    let due = 256 * changed.count as u64;
    let mut port = |out: &mut WordLists| {
        let [head, low, high] = turns.words();
        let answer = unsafe {
            site_change(
                net.wiring.as_ptr(), net.wiring.len(), readings.as_mut_ptr(), readings.len(),
                net.term_index.as_ptr(), net.term_index.len(),
                net.term_coefficient.as_ptr(), net.term_coefficient.len(), s.as_ptr(), s.len(),
                out.rows.as_mut_ptr(), out.rows.len(), out.cols.as_mut_ptr(), out.cols.len(),
                out.values.as_mut_ptr(), out.values.len(), head, low, high,
            )
        };
        assert_eq!(black_box(answer), due);
    };
    for _ in 0..2 {
        port(&mut out);
        out.hold(&changed.next());
    }
    side_by_side(
        || port(&mut out),
        || {
            black_box(changed.next());
        },
    )
}

/// A run of changes; the sheets keep the last list.
fn run(case: &Case) -> Times {
    let (net, s) = (&case.words, &case.sheet);
    let (mut readings, mut out) = (net.readings.clone(), WordLists::of_words(case.most_triplets()));
    let (mut turns, mut changed) = (Turns::of(case), Changed::of(case));
    let changes: Vec<u32> = (0..RUN).flat_map(|_| turns.words()).collect();
    let (mut numbers, mut counted) = ([u32::MAX; RUN], [u32::MAX; RUN]);
    let mut port = |out: &mut WordLists, numbers: &mut [u32], counted: &mut [u32]| {
        let answer = unsafe {
            site_run_changes(
                net.wiring.as_ptr(), net.wiring.len(), readings.as_mut_ptr(), readings.len(),
                net.term_index.as_ptr(), net.term_index.len(),
                net.term_coefficient.as_ptr(), net.term_coefficient.len(), s.as_ptr(), s.len(),
                out.rows.as_mut_ptr(), out.rows.len(), out.cols.as_mut_ptr(), out.cols.len(),
                out.values.as_mut_ptr(), out.values.len(), changes.as_ptr(), changes.len(),
                numbers.as_mut_ptr(), numbers.len(), counted.as_mut_ptr(), counted.len(),
            )
        };
        assert_eq!(black_box(answer), 0);
    };
    port(&mut out, &mut numbers, &mut counted);
    assert_eq!((numbers, counted), ([0; RUN], [changed.count as u32; RUN]));
    let lists: Vec<Triplets> = (0..RUN).map(|_| changed.next()).collect();
    out.hold(&lists[RUN - 1]);
    side_by_side(
        || port(&mut out, &mut numbers, &mut counted),
        || {
            for _ in 0..RUN {
                black_box(changed.next());
            }
        },
    )
}

/// The same on bytes.
fn run_by_bytes(case: &Case) -> Times {
    let (net, s) = (&case.bytes, &case.sheet_bytes);
    let (mut readings, mut out) = (net.readings.clone(), ByteLists::of_bytes(case.most_triplets()));
    let (mut turns, mut changed) = (Turns::of(case), Changed::of(case));
    let changes = word_bytes(&(0..RUN).flat_map(|_| turns.words()).collect::<Vec<u32>>());
    let (mut numbers, mut counted) = ([u8::MAX; 4 * RUN], [u8::MAX; 4 * RUN]);
    let mut port = |out: &mut ByteLists, numbers: &mut [u8], counted: &mut [u8]| {
        let answer = unsafe {
            capi_run_changes(
                net.wiring.as_ptr(), net.wiring.len(), readings.as_mut_ptr(), readings.len(),
                net.term_index.as_ptr(), net.term_index.len(),
                net.term_coefficient.as_ptr(), net.term_coefficient.len(), s.as_ptr(), s.len(),
                out.rows.as_mut_ptr(), out.rows.len(), out.cols.as_mut_ptr(), out.cols.len(),
                out.values.as_mut_ptr(), out.values.len(), changes.as_ptr(), changes.len(),
                numbers.as_mut_ptr(), numbers.len(), counted.as_mut_ptr(), counted.len(),
            )
        };
        assert_eq!(black_box(answer), 0);
    };
    port(&mut out, &mut numbers, &mut counted);
    assert_eq!((words(&numbers), words(&counted)), (vec![0; RUN], vec![changed.count as u32; RUN]));
    let lists: Vec<Triplets> = (0..RUN).map(|_| changed.next()).collect();
    out.hold(&lists[RUN - 1]);
    side_by_side(
        || port(&mut out, &mut numbers, &mut counted),
        || {
            for _ in 0..RUN {
                black_box(changed.next());
            }
        },
    )
}

pub fn rows(table: &mut Table, cases: &[Case]) {
    table.call("change", Form::Words, "k", cases, by_words);
    table.call("change", Form::Bytes, "k", cases, by_bytes);
    table.call("change, a run of 16", Form::Words, "k", cases, run);
    table.call("change, a run of 16", Form::Bytes, "k", cases, run_by_bytes);
}
