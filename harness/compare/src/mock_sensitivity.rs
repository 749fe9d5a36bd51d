//! The stand-ins for the exports of selectors, contraction and unit scales. Only the unit scales
//! come from the original.

use std::slice::{from_raw_parts, from_raw_parts_mut};

use super::{bad, f64s, u32s, Pointer, Site};
use oracle::{Bound, CostTerm, End, Operand, Parameter, Power, TapKind, VoltageKind, GB};

/// Where the blocks that operands read start, and the rows in all: from lengths that agree.
pub struct Rows {
    pg: usize,
    f: usize,
    nu_bal: usize,
    pub dim: usize,
}

pub fn rows_of(lent: [&[u8]; 4]) -> Rows {
    let (w, r) = (u32s(lent[0]).unwrap_or_default(), f64s(lent[1]).unwrap_or_default());
    let c: Vec<usize> = w[..7].iter().map(|&count| count as usize).collect();
    let (n, m, k, q) = (c[0], c[1], c[2], c[5]);
    let costs = w[9 + 2 * m + k..][..k].iter().filter(|&&own| own != 0).count();
    let (masks, limits) = (&w[w.len() - 3 * q..], &r[r.len() - 2 * q..]);
    let mut linear = 0;
    for row in 0..q {
        linear += match masks[row] {
            0 => 0,
            3 if limits[row] != limits[q + row] => 2,
            _ => 1,
        };
    }
    let nu_bal = 4 * n + 3 * k + 5 * m + costs + c[4] + linear;
    Rows { pg: n, f: n + k, nu_bal, dim: nu_bal + n + m + c[3] }
}

#[derive(Clone, Copy)]
struct Selector<'a> {
    mode: u32,
    sign: f64,
    counts: &'a [u32],
    rows: &'a [u32],
    weights: &'a [f64],
}

impl Selector<'_> {
    /// The network's and the selector's numbers, those of further sheets between them; dim if
    /// there is none.
    fn tested(
        self,
        lent: [&[u8]; 4],
        sized: impl Fn(usize) -> bool,
        valued: impl Fn(usize) -> bool,
    ) -> Result<usize, u32> {
        let site = Site::read(lent);
        if let Err(1) = site {
            return Err(1);
        }
        let dim = rows_of(lent).dim;
        let sum = self.counts.iter().fold(0u128, |sum, &count| sum + u128::from(count));
        let paired = self.rows.len() == self.weights.len();
        if !paired || sum != self.rows.len() as u128 || !sized(dim) {
            return Err(1);
        }
        site.map_err(|number| number as u32)?;
        if bad(self.sign, 1e12) || self.weights.iter().any(|&x| bad(x, 1e12)) || !valued(dim) {
            return Err(3);
        }
        if self.mode > 1 {
            return Err(4);
        }
        if self.rows.iter().any(|&row| row as usize >= dim) {
            return Err(5);
        }
        Ok(dim)
    }

    /// Each element's rows and weights.
    fn elements(&self) -> Vec<(&[u32], &[f64])> {
        let mut from = 0;
        let mut own = Vec::new();
        for &count in self.counts {
            let to = from + count as usize;
            own.push((&self.rows[from..to], &self.weights[from..to]));
            from = to;
        }
        own
    }
}

fn times(a: usize, b: usize) -> u128 {
    a as u128 * b as u128
}

/// The number, and the count where it is 0.
unsafe fn told(answer: Result<usize, u32>, count: *mut usize) -> u32 {
    match answer {
        Ok(words) => {
            *count = words;
            0
        }
        Err(number) => number,
    }
}

macro_rules! lent {
    ($w:expr, $wl:expr, $r:expr, $rl:expr, $ti:expr, $til:expr, $tc:expr, $tcl:expr) => {
        [
            from_raw_parts($w as Pointer, 4 * $wl),
            from_raw_parts($r as Pointer, 8 * $rl),
            from_raw_parts($ti as Pointer, 4 * $til),
            from_raw_parts($tc as Pointer, 8 * $tcl),
        ]
    };
}

#[no_mangle]
#[allow(clippy::too_many_arguments)]
pub unsafe extern "C" fn sens_operand_selector(
    w: *const u32,
    wl: usize,
    r: *const f64,
    rl: usize,
    ti: *const u32,
    til: usize,
    tc: *const f64,
    tcl: usize,
    operand: u32,
    sign: *mut f64,
    sign_length: usize,
    counts: *mut u32,
    counts_length: usize,
    rows: *mut u32,
    rows_length: usize,
    weights: *mut f64,
    weights_length: usize,
    count: *mut usize,
) -> u32 {
    let lent = lent!(w, wl, r, rl, ti, til, tc, tcl);
    let site = match Site::read(lent) {
        Ok(site) => site,
        Err(number) => return number as u32,
    };
    let starts = rows_of(lent);
    let (start, elements) = match operand {
        0 => (starts.nu_bal, site.n),
        2 => (starts.pg, site.k),
        4 => (starts.f, site.m),
        9 => (0, site.n),
        _ => return 4,
    };
    if sign_length < 1 || counts_length.min(rows_length).min(weights_length) < elements {
        return 7;
    }
    *sign = 1.0;
    for element in 0..elements {
        *counts.add(element) = 1;
        *rows.add(element) = (start + element) as u32;
        *weights.add(element) = 1.0;
    }
    told(Ok(elements), count)
}

#[no_mangle]
#[allow(clippy::too_many_arguments)]
pub unsafe extern "C" fn sens_contraction_first(
    w: *const u32,
    wl: usize,
    r: *const f64,
    rl: usize,
    ti: *const u32,
    til: usize,
    tc: *const f64,
    tcl: usize,
    mode: u32,
    sign: f64,
    counts: *const u32,
    counts_length: usize,
    rows: *const u32,
    rows_length: usize,
    weights: *const f64,
    weights_length: usize,
    columns: usize,
    selection: *mut f64,
    selection_length: usize,
    count: *mut usize,
) -> u32 {
    let lent = lent!(w, wl, r, rl, ti, til, tc, tcl);
    let counts = from_raw_parts(counts, counts_length);
    let rows = from_raw_parts(rows, rows_length);
    let weights = from_raw_parts(weights, weights_length);
    let selector = Selector { mode, sign, counts, rows, weights };
    let sized = |dim: usize| mode != 0 || times(dim, columns) < 1 << 64;
    let filled = |dim: usize| {
        if mode == 0 {
            return Ok(dim * columns);
        }
        let words = dim * counts.len();
        if selection_length < words {
            return Err(7);
        }
        let sheet = from_raw_parts_mut(selection, words);
        sheet.fill(0.0);
        for (element, (rows, weights)) in selector.elements().into_iter().enumerate() {
            for (&row, weight) in rows.iter().zip(weights) {
                sheet[dim * element + row as usize] += weight;
            }
        }
        Ok(words)
    };
    told(selector.tested(lent, sized, |_| true).and_then(filled), count)
}

#[no_mangle]
#[allow(clippy::too_many_arguments)]
pub unsafe extern "C" fn sens_right_side(
    mode: u32,
    count: usize,
    parameter: *const f64,
    parameter_length: usize,
    selection: *const f64,
    selection_length: usize,
    out: *mut f64,
    out_length: usize,
) -> usize {
    let (sheet, length) = match mode {
        0 => (parameter, parameter_length),
        1 => (selection, selection_length),
        _ => return 0,
    };
    if count > length {
        return 0;
    }
    if count <= out_length {
        std::ptr::copy_nonoverlapping(sheet, out, count);
    }
    count
}

#[no_mangle]
#[allow(clippy::too_many_arguments)]
pub unsafe extern "C" fn sens_contraction_third(
    w: *const u32,
    wl: usize,
    r: *const f64,
    rl: usize,
    ti: *const u32,
    til: usize,
    tc: *const f64,
    tcl: usize,
    mode: u32,
    sign: f64,
    counts: *const u32,
    counts_length: usize,
    rows: *const u32,
    rows_length: usize,
    weights: *const f64,
    weights_length: usize,
    columns: usize,
    parameter: *const f64,
    parameter_length: usize,
    solved: *const f64,
    solved_length: usize,
    out: *mut f64,
    out_length: usize,
    count: *mut usize,
) -> u32 {
    let lent = lent!(w, wl, r, rl, ti, til, tc, tcl);
    let counts = from_raw_parts(counts, counts_length);
    let rows = from_raw_parts(rows, rows_length);
    let weights = from_raw_parts(weights, weights_length);
    let parameter = from_raw_parts(parameter, parameter_length);
    let solved = from_raw_parts(solved, solved_length);
    let selector = Selector { mode, sign, counts, rows, weights };
    let sized = |dim: usize| {
        let sides = if mode == 0 { columns } else { counts.len() };
        let exact = mode > 1 || solved.len() as u128 == times(dim, sides);
        exact && parameter.len() as u128 >= times(dim, columns)
    };
    let valued = |dim: usize| {
        let front = &parameter[..dim * columns];
        !front.iter().any(|&x| bad(x, 1e60)) && !solved.iter().any(|&x| bad(x, 1e15))
    };
    let filled = |dim: usize| {
        if (out_length as u128) < times(counts.len(), columns) {
            return Err(7);
        }
        let out = from_raw_parts_mut(out, counts.len() * columns);
        contract(selector, dim, columns, parameter, solved, out);
        Ok(out.len())
    };
    told(selector.tested(lent, sized, valued).and_then(filled), count)
}

fn contract(
    selector: Selector,
    dim: usize,
    columns: usize,
    parameter: &[f64],
    solved: &[f64],
    out: &mut [f64],
) {
    let own = |column: usize| {
        let words = parameter[dim * column..dim * (column + 1)].iter().copied().enumerate();
        words.filter(|word| word.1 != 0.0).collect()
    };
    let forward = selector.mode == 0;
    let adjoint = if forward || out.is_empty() { 0 } else { columns };
    let entries: Vec<Vec<(usize, f64)>> = (0..adjoint).map(own).collect();
    for (element, (rows, weights)) in selector.elements().into_iter().enumerate() {
        for column in 0..columns {
            let mut sum = 0.0;
            if forward {
                for (&row, weight) in rows.iter().zip(weights) {
                    sum += weight * solved[dim * column + row as usize];
                }
            } else {
                for &(row, x) in &entries[column] {
                    sum += x * solved[dim * element + row];
                }
            }
            out[columns * element + column] = selector.sign * sum;
        }
    }
}

fn operand_of(code: u32) -> Option<Operand> {
    let power = if code & 1 == 0 { Power::Active } else { Power::Reactive };
    let kinds = [
        VoltageKind::Magnitude,
        VoltageKind::Angle,
        VoltageKind::Squared,
        VoltageKind::ProductReal,
        VoltageKind::ProductImag,
    ];
    match code {
        0..=1 => Some(Operand::Price(power)),
        2..=3 => Some(Operand::Dispatch(power)),
        4..=7 => {
            let power = if code < 6 { Power::Active } else { Power::Reactive };
            Some(Operand::Flow { power, end: if code & 1 == 0 { End::From } else { End::To } })
        }
        8..=12 => Some(Operand::Voltage(kinds[code as usize - 8])),
        _ => None,
    }
}

fn parameter_of(code: u32) -> Option<Parameter> {
    let second = |first: u32| code > first;
    let part = |first| if second(first) { GB::Susceptance } else { GB::Conductance };
    let bound = |first| if second(first) { Bound::Max } else { Bound::Min };
    Some(match code {
        0 => Parameter::Demand(Power::Active),
        1 => Parameter::Demand(Power::Reactive),
        2 => Parameter::Cost(CostTerm::Quadratic),
        3 => Parameter::Cost(CostTerm::Linear),
        4 => Parameter::LineLimit,
        5..=6 => Parameter::SeriesAdmittance(part(5)),
        7..=8 => Parameter::ShuntAdmittance(part(7)),
        9..=10 => Parameter::VoltageBound(bound(9)),
        11..=12 => Parameter::GenBound { power: Power::Active, bound: bound(11) },
        13..=14 => Parameter::GenBound { power: Power::Reactive, bound: bound(13) },
        15 => Parameter::Transformer(TapKind::Ratio),
        16 => Parameter::Transformer(TapKind::PhaseShift),
        17 => Parameter::Switching,
        18 => Parameter::ConstraintLimit,
        _ => return None,
    })
}

#[no_mangle]
pub unsafe extern "C" fn sens_served_unit_scale(
    operand: u32,
    parameter: u32,
    base: f64,
    out: *mut f64,
    out_length: usize,
    count: *mut usize,
) -> u32 {
    if !(0.001..=1e6).contains(&base) {
        return 3;
    }
    let (operand, parameter) = match (operand_of(operand), parameter_of(parameter)) {
        (Some(operand), Some(parameter)) => (operand, parameter),
        _ => return 4,
    };
    if out_length == 0 {
        return 7;
    }
    *out = oracle::served_unit_scale(operand, parameter, base);
    told(Ok(1), count)
}
