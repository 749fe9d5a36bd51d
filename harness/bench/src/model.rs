//! The calls of the model, on bytes, beside the original's methods of a network.

use crate::case::{double_bytes, doubles, hold, on, solution, ByteLists, Case};
use crate::timing::{alone, side_by_side, Times};
use crate::{Form, Table};
use exports::{
    capi_current_fixed_withdrawal, capi_current_flow_offset, capi_evaluate, capi_evaluate_terms, capi_generator_cost,
    capi_network_number, capi_network_withdrawal, capi_phase_withdrawal, capi_row_kind, capi_shed_cap,
    capi_susceptance_coo,
};
use oracle::Oracle;
use std::hint::black_box;

/// A power that generators' costs are asked at.
const POWER: f64 = 1.25;

/// An export that answers one double, beside the original's.
fn one(mut export: impl FnMut(*mut u8, usize) -> u64, original: impl Fn() -> f64) -> Times {
    let mut out = [0u8; 8];
    let mut port = |out: &mut [u8]| assert_eq!(black_box(export(out.as_mut_ptr(), out.len())), 256);
    port(&mut out);
    hold(&doubles(&out), &[original()]);
    side_by_side(
        || port(&mut out),
        || {
            black_box(original());
        },
    )
}

/// An export that answers a double for each bus, beside the original's.
fn each_bus(
    case: &Case, mut export: impl FnMut(*mut u8, usize) -> u64, original: impl Fn(&Oracle) -> Vec<f64>,
) -> Times {
    let mut out = vec![0u8; 8 * case.size.n];
    let due = 256 * case.size.n as u64;
    let mut port = |out: &mut [u8]| assert_eq!(black_box(export(out.as_mut_ptr(), out.len())), due);
    port(&mut out);
    hold(&doubles(&out), &original(&case.original));
    side_by_side(
        || port(&mut out),
        || {
            black_box(original(black_box(&case.original)));
        },
    )
}

/// The cost of a generator, the last one without a piecewise cost or the last with one.
fn generator_cost(case: &Case, piecewise: bool) -> Times {
    let found = (0..case.size.k).rfind(|&generator| case.has_piecewise_cost(generator) == piecewise);
    let generator = found.expect("some generators have a piecewise cost, others none");
    one(
        |out, outl| unsafe { on!(capi_generator_cost, case.bytes, generator, POWER.to_bits(), out, outl) },
        || black_box(&case.original).generator_cost(black_box(generator), black_box(POWER)),
    )
}

/// The value of the last linear row.
fn evaluate(case: &Case) -> Times {
    let row = case.linear_rows() - 1;
    let (f, pg) = (solution(case.size.m), solution(case.size.k));
    let (flows, powers) = (double_bytes(&f), double_bytes(&pg));
    one(
        |out, outl| unsafe {
            on!(
                capi_evaluate, case.bytes, row, flows.as_ptr(), flows.len(), powers.as_ptr(), powers.len(), out, outl
            )
        },
        || black_box(&case.original).evaluate(black_box(row), black_box(&f), black_box(&pg)),
    )
}

/// The same with the terms as records.
fn evaluate_terms(case: &Case) -> Times {
    let row = case.linear_rows() - 1;
    let (f, pg) = (solution(case.size.m), solution(case.size.k));
    let (flows, powers) = (double_bytes(&f), double_bytes(&pg));
    let (wiring, readings) = (&case.bytes.wiring, &case.bytes.readings);
    let pairs = case.words.term_index.iter().zip(&case.words.term_coefficient);
    let records: Vec<u8> = pairs.flat_map(|(i, x)| [&i.to_le_bytes()[..], &x.to_le_bytes()].concat()).collect();
    one(
        |out, outl| unsafe {
            capi_evaluate_terms(
                wiring.as_ptr(), wiring.len(), readings.as_ptr(), readings.len(), records.as_ptr(), records.len(),
                row, flows.as_ptr(), flows.len(), powers.as_ptr(), powers.len(), out, outl,
            )
        },
        || black_box(&case.original).evaluate(black_box(row), black_box(&f), black_box(&pg)),
    )
}

fn row_kind(case: &Case) -> Times {
    let row = case.linear_rows() - 1;
    let due = 256 * u64::from(case.original.row_kind(row));
    let port = || assert_eq!(black_box(unsafe { on!(capi_row_kind, case.bytes, row) }), due);
    port();
    side_by_side(port, || {
        black_box(black_box(&case.original).row_kind(black_box(row)));
    })
}

fn network_number(case: &Case) -> Times {
    let port = || assert_eq!(black_box(unsafe { on!(capi_network_number, case.bytes) }), 0);
    port();
    alone(port)
}

fn susceptance_coo(case: &Case) -> Times {
    let list = case.original.susceptance_coo();
    let due = 256 * list.len() as u64;
    let mut out = ByteLists::of_bytes(4 * case.size.m);
    let port = |out: &mut ByteLists| {
        let answer = unsafe {
            on!(
                capi_susceptance_coo, case.bytes, out.rows.as_mut_ptr(), out.rows.len(),
                out.cols.as_mut_ptr(), out.cols.len(), out.values.as_mut_ptr(), out.values.len(),
            )
        };
        assert_eq!(black_box(answer), due);
    };
    port(&mut out);
    out.hold(&list);
    side_by_side(
        || port(&mut out),
        || {
            black_box(black_box(&case.original).susceptance_coo());
        },
    )
}

pub fn rows(table: &mut Table, cases: &[Case]) {
    table.call("network_number", Form::Bytes, "n", cases, network_number);
    table.call("shed_cap", Form::Bytes, "e", cases, |case| {
        let bus = case.size.n - 1;
        one(
            |out, outl| unsafe { on!(capi_shed_cap, case.bytes, bus, out, outl) },
            || black_box(&case.original).shed_cap(black_box(bus)),
        )
    });
    table.call("current_flow_offset", Form::Bytes, "e", cases, |case| {
        let branch = case.size.m - 1;
        one(
            |out, outl| unsafe { on!(capi_current_flow_offset, case.bytes, branch, out, outl) },
            || black_box(&case.original).current_flow_offset(black_box(branch)),
        )
    });
    table.call("generator_cost, quadratic", Form::Bytes, "e", cases, |case| generator_cost(case, false));
    table.call("generator_cost, piecewise", Form::Bytes, "e", cases, |case| generator_cost(case, true));
    table.call("evaluate", Form::Bytes, "e", cases, evaluate);
    table.call("evaluate, terms as records", Form::Bytes, "e", cases, evaluate_terms);
    table.call("row_kind", Form::Bytes, "e", cases, row_kind);
    table.call("phase_withdrawal", Form::Bytes, "", cases, |case| {
        let export = |out, outl| unsafe { on!(capi_phase_withdrawal, case.bytes, out, outl) };
        each_bus(case, export, Oracle::phase_withdrawal)
    });
    table.call("network_withdrawal", Form::Bytes, "", cases, |case| {
        let export = |out, outl| unsafe { on!(capi_network_withdrawal, case.bytes, out, outl) };
        each_bus(case, export, Oracle::network_withdrawal)
    });
    table.call("current_fixed_withdrawal", Form::Bytes, "", cases, |case| {
        let export = |out, outl| unsafe { on!(capi_current_fixed_withdrawal, case.bytes, out, outl) };
        each_bus(case, export, Oracle::current_fixed_withdrawal)
    });
    table.call("susceptance_coo", Form::Bytes, "", cases, susceptance_coo);
}
