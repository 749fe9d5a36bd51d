//! All columns of each served parameter, and by bytes one column, beside the original's block, whose system is
//! made in the same call.

use crate::case::{doubles, hold, on, Case};
use crate::timing::{side_by_side, Times};
use crate::{Form, Table};
use exports::{capi_parameter_jacobian, sens_parameter_jacobian};
use oracle::{CostTerm, Differentiable, Parameter, Power, GB};
use std::hint::black_box;

/// The served parameters with their numbers.
const SERVED: [(&str, u32, Parameter); 7] = [
    ("demand", 0, Parameter::Demand(Power::Active)),
    ("quadratic cost", 2, Parameter::Cost(CostTerm::Quadratic)),
    ("linear cost", 3, Parameter::Cost(CostTerm::Linear)),
    ("line limit", 4, Parameter::LineLimit),
    ("susceptance", 6, Parameter::SeriesAdmittance(GB::Susceptance)),
    ("switching", 17, Parameter::Switching),
    ("constraint limit", 18, Parameter::ConstraintLimit),
];

/// All elements of a parameter, but no generator with a piecewise cost for either cost.
fn elements(case: &Case, parameter: Parameter) -> Vec<usize> {
    let count = case.original.parameter_len(parameter).expect("it is served");
    let of_cost = matches!(parameter, Parameter::Cost(_));
    (0..count).filter(|&element| !of_cost || !case.has_piecewise_cost(element)).collect()
}

fn block(case: &Case, number: u32, parameter: Parameter) -> Times {
    let elements = elements(case, parameter);
    let columns: Vec<u32> = elements.iter().map(|&element| element as u32).collect();
    let Ok(due) = case.original.parameter_jacobian(&case.sheet, parameter, &elements) else {
        panic!("it is served");
    };
    let (s, mut block) = (&case.sheet, vec![0f64; due.len()]);
    let port = |block: &mut [f64]| {
        let answer = unsafe {
            on!(
                sens_parameter_jacobian, case.words, s.as_ptr(), s.len(), number, columns.as_ptr(), columns.len(),
                block.as_mut_ptr(), block.len(),
            )
        };
        assert_eq!(black_box(answer), 0);
    };
    port(&mut block);
    hold(&block, &due);
    side_by_side(
        || port(&mut block),
        || {
            let kkt = case.original.kkt_of(black_box(&case.solved));
            assert!(black_box(kkt.parameter_jacobian(parameter, &elements)).is_ok());
        },
    )
}

/// The column of the last bus's demand, which is numbered 0.
fn column(case: &Case) -> Times {
    let (parameter, bus) = (Parameter::Demand(Power::Active), case.size.n - 1);
    let Ok(due) = case.original.parameter_jacobian(&case.sheet, parameter, &[bus]) else {
        panic!("it is served");
    };
    let (s, mut column) = (&case.sheet_bytes, vec![0u8; 8 * due.len()]);
    let port = |column: &mut [u8]| {
        let answer = unsafe {
            on!(
                capi_parameter_jacobian, case.bytes, s.as_ptr(), s.len(), 0, bus as u32,
                column.as_mut_ptr(), column.len(),
            )
        };
        assert_eq!(black_box(answer), 256);
    };
    port(&mut column);
    hold(&doubles(&column), &due);
    side_by_side(
        || port(&mut column),
        || {
            let kkt = case.original.kkt_of(black_box(&case.solved));
            assert!(black_box(kkt.parameter_jacobian(parameter, black_box(&[bus]))).is_ok());
        },
    )
}

pub fn rows(table: &mut Table, cases: &[Case]) {
    for (name, number, parameter) in SERVED {
        let name = format!("parameter_jacobian, {name}");
        table.call(&name, Form::Words, "k", cases, |case| block(case, number, parameter));
    }
    table.call("parameter_jacobian, one demand", Form::Bytes, "ko", cases, column);
}
