//! The selector of each served operand, by bytes that of prices, beside the original's, of a system that is ready,
//! and a unit scale.

use crate::case::{doubles, hold, on, words, Case};
use crate::timing::{side_by_side, Times};
use crate::{Form, Table};
use exports::{capi_operand_selector, capi_served_unit_scale, sens_operand_selector, sens_served_unit_scale};
use oracle::{served_unit_scale, Differentiable, End, Operand, Parameter, Power, Selector, VoltageKind};
use std::hint::black_box;

/// The served operands with their numbers.
const SERVED: [(&str, u32, Operand); 4] = [
    ("price", 0, Operand::Price(Power::Active)),
    ("dispatch", 2, Operand::Dispatch(Power::Active)),
    ("flow", 4, Operand::Flow { power: Power::Active, end: End::From }),
    ("angle", 9, Operand::Voltage(VoltageKind::Angle)),
];

/// Every word of a selector that the original has, in its place.
fn hold_selector(due: &Selector, sign: &[f64], counts: &[u32], rows: &[u32], weights: &[f64]) {
    let entries = || due.map.iter().flatten();
    hold(sign, &[due.sign]);
    assert!(counts.iter().map(|&count| count as usize).eq(due.map.iter().map(Vec::len)));
    assert!(rows.iter().map(|&row| row as usize).eq(entries().map(|entry| entry.0)));
    hold(weights, &entries().map(|entry| entry.1).collect::<Vec<f64>>());
}

fn by_words(case: &Case, number: u32, operand: Operand) -> Times {
    let system = case.original.kkt_of(&case.solved);
    let Ok(due) = system.operand_selector(operand) else {
        panic!("it is served");
    };
    let (elements, due_entries) = (due.map.len(), due.map.iter().flatten().count());
    let (mut sign, mut counts) = ([0f64], vec![0u32; elements]);
    let (mut rows, mut weights) = (vec![0u32; due_entries], vec![0f64; due_entries]);
    let port = |sign: &mut [f64], counts: &mut [u32], rows: &mut [u32], weights: &mut [f64]| {
        let mut count = 0;
        let answer = unsafe {
            on!(
                sens_operand_selector, case.words, number, sign.as_mut_ptr(), sign.len(),
                counts.as_mut_ptr(), counts.len(), rows.as_mut_ptr(), rows.len(),
                weights.as_mut_ptr(), weights.len(), &mut count,
            )
        };
        assert_eq!(black_box((answer, count)), (0, due_entries));
    };
    port(&mut sign, &mut counts, &mut rows, &mut weights);
    hold_selector(&due, &sign, &counts, &rows, &weights);
    side_by_side(
        || port(&mut sign, &mut counts, &mut rows, &mut weights),
        || assert!(black_box(black_box(&system).operand_selector(black_box(operand))).is_ok()),
    )
}

fn by_bytes(case: &Case, number: u32, operand: Operand) -> Times {
    let system = case.original.kkt_of(&case.solved);
    let Ok(due) = system.operand_selector(operand) else {
        panic!("it is served");
    };
    let (elements, due_entries) = (due.map.len(), due.map.iter().flatten().count());
    let (mut sign, mut counts) = ([0u8; 8], vec![0u8; 4 * elements]);
    let (mut rows, mut weights) = (vec![0u8; 4 * due_entries], vec![0u8; 8 * due_entries]);
    let port = |sign: &mut [u8], counts: &mut [u8], rows: &mut [u8], weights: &mut [u8]| {
        let answer = unsafe {
            on!(
                capi_operand_selector, case.bytes, number, sign.as_mut_ptr(), sign.len(),
                counts.as_mut_ptr(), counts.len(), rows.as_mut_ptr(), rows.len(),
                weights.as_mut_ptr(), weights.len(),
            )
        };
        assert_eq!(black_box(answer), 256 * due_entries as u64);
    };
    port(&mut sign, &mut counts, &mut rows, &mut weights);
    hold_selector(&due, &doubles(&sign), &words(&counts), &words(&rows), &doubles(&weights));
    side_by_side(
        || port(&mut sign, &mut counts, &mut rows, &mut weights),
        || assert!(black_box(black_box(&system).operand_selector(black_box(operand))).is_ok()),
    )
}

/// From prices and demands, both numbered 0.
const SCALED: (Operand, Parameter) = (Operand::Price(Power::Active), Parameter::Demand(Power::Active));
const BASE: f64 = 100.0;

fn their_unit_scale() -> f64 {
    let (operand, parameter) = black_box(SCALED);
    served_unit_scale(operand, parameter, black_box(BASE))
}

fn unit_scale_by_words() -> Times {
    let mut out = [0f64];
    let port = |out: &mut [f64]| {
        let mut count = 0;
        let answer = unsafe { sens_served_unit_scale(0, 0, black_box(BASE), out.as_mut_ptr(), out.len(), &mut count) };
        assert_eq!(black_box((answer, count)), (0, 1));
    };
    port(&mut out);
    hold(&out, &[their_unit_scale()]);
    side_by_side(
        || port(&mut out),
        || {
            black_box(their_unit_scale());
        },
    )
}

fn unit_scale_by_bytes() -> Times {
    let mut out = [0u8; 8];
    let port = |out: &mut [u8]| {
        let answer = unsafe { capi_served_unit_scale(0, 0, black_box(BASE), out.as_mut_ptr(), out.len()) };
        assert_eq!(black_box(answer), 256);
    };
    port(&mut out);
    hold(&doubles(&out), &[their_unit_scale()]);
    side_by_side(
        || port(&mut out),
        || {
            black_box(their_unit_scale());
        },
    )
}

pub fn rows(table: &mut Table, cases: &[Case]) {
    for (name, number, operand) in SERVED {
        let name = format!("operand_selector, {name}");
        table.call(&name, Form::Words, "r", cases, |case| by_words(case, number, operand));
    }
    let price = Operand::Price(Power::Active);
    table.call("operand_selector, price", Form::Bytes, "r", cases, |case| by_bytes(case, 0, price));
    table.call_without_network("served_unit_scale", Form::Words, "", unit_scale_by_words);
    table.call_without_network("served_unit_scale", Form::Bytes, "", unit_scale_by_bytes);
}
