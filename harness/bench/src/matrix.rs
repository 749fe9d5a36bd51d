//! The calls of the derivatives: the snapped sheet and its duals, and the matrix by bytes and by words, beside
//! the original's system with its list.

use crate::case::{doubles, hold, on, ByteLists, Case, WordLists};
use crate::timing::{side_by_side, side_by_side_but, Times};
use crate::{Form, Table};
use exports::{capi_kkt_triplets, capi_nu_flow_values, capi_snap, capi_snap_linear, sens_kkt_triplets};
use oracle::Differentiable;
use std::hint::black_box;

fn snap(case: &Case) -> Times {
    let (s, mut out) = (&case.sheet_bytes, vec![0u8; case.sheet_bytes.len()]);
    let due = 256 * case.sheet.len() as u64;
    let port = |out: &mut [u8]| {
        let answer = unsafe { on!(capi_snap, case.bytes, s.as_ptr(), s.len(), out.as_mut_ptr(), out.len()) };
        assert_eq!(black_box(answer), due);
    };
    port(&mut out);
    hold(&doubles(&out), &case.original.snap(&case.sheet));
    side_by_side_but(
        || port(&mut out),
        || {
            black_box(case.original.snap(black_box(&case.sheet)));
        },
        || case.read_sheet(),
    )
}

fn snap_linear(case: &Case) -> Times {
    let (s, mut out) = (&case.sheet_bytes, vec![0u8; 8 * 3 * case.linear_rows()]);
    let due = 256 * 3 * case.linear_rows() as u64;
    let port = |out: &mut [u8]| {
        let answer = unsafe { on!(capi_snap_linear, case.bytes, s.as_ptr(), s.len(), out.as_mut_ptr(), out.len()) };
        assert_eq!(black_box(answer), due);
    };
    port(&mut out);
    hold(&doubles(&out), &case.original.snap_linear(&case.sheet).concat());
    side_by_side_but(
        || port(&mut out),
        || {
            black_box(case.original.snap_linear(black_box(&case.sheet)));
        },
        || case.read_sheet(),
    )
}

/// The original has them in its system alone, which is made for them.
fn nu_flow_values(case: &Case) -> Times {
    let (s, mut out) = (&case.sheet_bytes, vec![0u8; 8 * case.size.m]);
    let due = 256 * case.size.m as u64;
    let port = |out: &mut [u8]| {
        let answer = unsafe { on!(capi_nu_flow_values, case.bytes, s.as_ptr(), s.len(), out.as_mut_ptr(), out.len()) };
        assert_eq!(black_box(answer), due);
    };
    port(&mut out);
    hold(&doubles(&out), &case.original.nu_flow_values(&case.sheet));
    side_by_side(
        || port(&mut out),
        || {
            black_box(case.original.kkt_of(black_box(&case.solved)));
        },
    )
}

fn list(case: &Case) {
    black_box(case.original.kkt_of(black_box(&case.solved)).jacobian());
}

fn by_bytes(case: &Case) -> Times {
    let (due, s) = (case.original.jacobian(&case.sheet), &case.sheet_bytes);
    let mut out = ByteLists::of_bytes(case.most_triplets());
    let port = |out: &mut ByteLists| {
        let answer = unsafe {
            on!(
                capi_kkt_triplets, case.bytes, s.as_ptr(), s.len(), out.rows.as_mut_ptr(), out.rows.len(),
                out.cols.as_mut_ptr(), out.cols.len(), out.values.as_mut_ptr(), out.values.len(),
            )
        };
        assert_eq!(black_box(answer), 256 * due.len() as u64);
    };
    port(&mut out);
    out.hold(&due);
    side_by_side(|| port(&mut out), || list(case))
}

fn by_words(case: &Case) -> Times {
    let (due, s) = (case.original.jacobian(&case.sheet), &case.sheet);
    let mut out = WordLists::of_words(case.most_triplets());
    let port = |out: &mut WordLists| {
        let answer = unsafe {
            on!(
                sens_kkt_triplets, case.words, s.as_ptr(), s.len(), out.rows.as_mut_ptr(), out.rows.len(),
                out.cols.as_mut_ptr(), out.cols.len(), out.values.as_mut_ptr(), out.values.len(),
            )
        };
        assert_eq!(black_box(answer), 256 * due.len() as u64);
    };
    port(&mut out);
    out.hold(&due);
    side_by_side(|| port(&mut out), || list(case))
}

pub fn rows(table: &mut Table, cases: &[Case]) {
    table.call("snap", Form::Bytes, "w", cases, snap);
    table.call("snap_linear", Form::Bytes, "s", cases, snap_linear);
    table.call("nu_flow_values", Form::Bytes, "k", cases, nu_flow_values);
    table.call("kkt_triplets", Form::Words, "k", cases, by_words);
    table.call("kkt_triplets", Form::Bytes, "k", cases, by_bytes);
}
