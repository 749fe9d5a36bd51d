//! The stand-in for the export of the parameters' columns. Numbers are made here, values come from
//! the original.

use std::slice::from_raw_parts;

use super::{solved, Pointer, Site};
use oracle::{CostTerm, Parameter, Power, GB};

/// The original's parameter and the place of its length among the counts.
fn served(number: u32) -> Option<(Parameter, usize)> {
    match number {
        0 => Some((Parameter::Demand(Power::Active), 0)),
        2 => Some((Parameter::Cost(CostTerm::Quadratic), 2)),
        3 => Some((Parameter::Cost(CostTerm::Linear), 2)),
        4 => Some((Parameter::LineLimit, 1)),
        6 => Some((Parameter::SeriesAdmittance(GB::Susceptance), 1)),
        17 => Some((Parameter::Switching, 1)),
        18 => Some((Parameter::ConstraintLimit, 5)),
        _ => None,
    }
}

fn columns(
    lent: [&[u8]; 4],
    solution: &[u8],
    parameter: u32,
    columns: &[u32],
    room: usize,
) -> Result<Vec<f64>, u64> {
    let (original, words) = solved(lent, Site::read(lent), solution, true)?;
    if columns.is_empty() {
        return Ok(Vec::new());
    }
    let (of, length) = served(parameter).ok_or(4u64)?;
    let site = Site::read(lent)?;
    if columns.iter().any(|&column| column >= site.w[length]) {
        return Err(5);
    }
    let own = &site.w[9 + 2 * site.m + site.k..];
    if matches!(of, Parameter::Cost(_)) && columns.iter().any(|&at| own[at as usize] > 0) {
        return Err(6);
    }
    if room < columns.len() * original.dim() {
        return Err(7);
    }
    let columns: Vec<usize> = columns.iter().map(|&column| column as usize).collect();
    original.parameter_jacobian(&words, of, &columns).map_err(|_| 6)
}

#[no_mangle]
#[allow(clippy::too_many_arguments)]
pub unsafe extern "C" fn sens_parameter_jacobian(
    w: *const u32,
    wl: usize,
    r: *const f64,
    rl: usize,
    ti: *const u32,
    til: usize,
    tc: *const f64,
    tcl: usize,
    s: *const f64,
    sl: usize,
    parameter: u32,
    c: *const u32,
    cl: usize,
    sheet: *mut f64,
    sheet_length: usize,
) -> u32 {
    let lent = [
        from_raw_parts(w as Pointer, 4 * wl),
        from_raw_parts(r as Pointer, 8 * rl),
        from_raw_parts(ti as Pointer, 4 * til),
        from_raw_parts(tc as Pointer, 8 * tcl),
    ];
    let solution = from_raw_parts(s as Pointer, 8 * sl);
    match columns(lent, solution, parameter, from_raw_parts(c, cl), sheet_length) {
        Ok(words) => {
            std::ptr::copy_nonoverlapping(words.as_ptr(), sheet, words.len());
            0
        }
        Err(number) => number as u32,
    }
}
