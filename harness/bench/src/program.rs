//! The program beside the original: assembly by words and by bytes against its own assembly, whose
//! matrices keep their triplets, reading a solver's vectors back, and the marginal values of a solution.

use crate::case::{double_bytes, doubles, hold, on, solution, words, ByteLists, Case, WordLists};
use crate::timing::{side_by_side, side_by_side_but, Times};
use crate::{Form, Table};
use exports::{capi_assemble_opf, capi_nodal_marginal_values, capi_read_dc_solution, problem_assemble_opf};
use oracle::Assembly;
use std::hint::black_box;

const OBJECTIVE: f64 = 12.5;

/// Room for the cones' sizes, more than there are.
const CONES: usize = 4;

/// Number 0 with both counts.
fn due(program: &Assembly) -> u64 {
    (program.a.len() as u64) << 8 | (program.p.len() as u64) << 32
}

/// Every word beside the triplets that the original has, in its place.
fn hold_sides(program: &Assembly, q: &[f64], b: &[f64], cones: &[u32]) {
    hold(q, &program.q);
    hold(b, &program.b);
    for (got, &size) in cones.iter().zip(&program.cones) {
        assert_eq!(*got as usize, size);
    }
}

fn by_bytes(case: &Case) -> Times {
    let program = case.original.assemble();
    let (due, lists) = (due(&program), case.most_program_triplets().map(ByteLists::of_bytes));
    let [mut p, mut a] = lists;
    let (mut q, mut b) = (vec![0u8; 8 * program.columns], vec![0u8; 8 * program.rows]);
    let mut cones = [0u8; 4 * CONES];
    let port = |p: &mut ByteLists, a: &mut ByteLists, q: &mut [u8], b: &mut [u8], cones: &mut [u8]| {
        let answer = unsafe {
            on!(
                capi_assemble_opf, case.bytes, p.rows.as_mut_ptr(), p.rows.len(), p.cols.as_mut_ptr(), p.cols.len(),
                p.values.as_mut_ptr(), p.values.len(), a.rows.as_mut_ptr(), a.rows.len(),
                a.cols.as_mut_ptr(), a.cols.len(), a.values.as_mut_ptr(), a.values.len(),
                q.as_mut_ptr(), q.len(), b.as_mut_ptr(), b.len(), cones.as_mut_ptr(), cones.len(),
            )
        };
        assert_eq!(black_box(answer), due);
    };
    port(&mut p, &mut a, &mut q, &mut b, &mut cones);
    p.hold(&program.p);
    a.hold(&program.a);
    hold_sides(&program, &doubles(&q), &doubles(&b), &words(&cones));
    side_by_side(
        || port(&mut p, &mut a, &mut q, &mut b, &mut cones),
        || {
            black_box(black_box(&case.original).program());
        },
    )
}

fn by_words(case: &Case) -> Times {
    let program = case.original.assemble();
    let (due, lists) = (due(&program), case.most_program_triplets().map(WordLists::of_words));
    let [mut p, mut a] = lists;
    let (mut q, mut b) = (vec![0f64; program.columns], vec![0f64; program.rows]);
    let mut cones = [0u32; CONES];
    let port = |p: &mut WordLists, a: &mut WordLists, q: &mut [f64], b: &mut [f64], cones: &mut [u32]| {
        let answer = unsafe {
            on!(
                problem_assemble_opf, case.words, p.rows.as_mut_ptr(), p.rows.len(), p.cols.as_mut_ptr(), p.cols.len(),
                p.values.as_mut_ptr(), p.values.len(), a.rows.as_mut_ptr(), a.rows.len(),
                a.cols.as_mut_ptr(), a.cols.len(), a.values.as_mut_ptr(), a.values.len(),
                q.as_mut_ptr(), q.len(), b.as_mut_ptr(), b.len(), cones.as_mut_ptr(), cones.len(),
            )
        };
        assert_eq!(black_box(answer), due);
    };
    port(&mut p, &mut a, &mut q, &mut b, &mut cones);
    p.hold(&program.p);
    a.hold(&program.a);
    hold_sides(&program, &q, &b, &cones);
    side_by_side(
        || port(&mut p, &mut a, &mut q, &mut b, &mut cones),
        || {
            black_box(black_box(&case.original).program());
        },
    )
}

fn read_dc_solution(case: &Case) -> Times {
    let program = case.original.assemble();
    let (x, z) = (solution(program.columns), solution(program.rows));
    let raw = case.original.raw(&x, &z, OBJECTIVE);
    let sheet = case.original.read_dc_solution(&x, &z, OBJECTIVE);
    let (x, z, mut out) = (double_bytes(&x), double_bytes(&z), vec![0u8; 8 * sheet.len()]);
    let port = |out: &mut [u8]| {
        let answer = unsafe {
            on!(
                capi_read_dc_solution, case.bytes, x.as_ptr(), x.len(), z.as_ptr(), z.len(), OBJECTIVE.to_bits(),
                out.as_mut_ptr(), out.len(),
            )
        };
        assert_eq!(black_box(answer), 256 * sheet.len() as u64);
    };
    port(&mut out);
    hold(&doubles(&out), &sheet);
    side_by_side(
        || port(&mut out),
        || {
            black_box(black_box(&case.original).read_raw(black_box(&raw)));
        },
    )
}

fn nodal_marginal_values(case: &Case) -> Times {
    let (s, mut out) = (&case.sheet_bytes, vec![0u8; 8 * case.size.n]);
    let due = 256 * case.size.n as u64;
    let port = |out: &mut [u8]| {
        let answer =
            unsafe { on!(capi_nodal_marginal_values, case.bytes, s.as_ptr(), s.len(), out.as_mut_ptr(), out.len()) };
        assert_eq!(black_box(answer), due);
    };
    port(&mut out);
    hold(&doubles(&out), &case.original.nodal_marginal_values(&case.sheet));
    side_by_side_but(
        || port(&mut out),
        || {
            black_box(case.original.nodal_marginal_values(black_box(&case.sheet)));
        },
        || case.read_sheet(),
    )
}

pub fn rows(table: &mut Table, cases: &[Case]) {
    table.call("assemble_opf", Form::Words, "t", cases, by_words);
    table.call("assemble_opf", Form::Bytes, "t", cases, by_bytes);
    table.call("read_dc_solution", Form::Bytes, "", cases, read_dc_solution);
    table.call("nodal_marginal_values", Form::Bytes, "s", cases, nodal_marginal_values);
}
