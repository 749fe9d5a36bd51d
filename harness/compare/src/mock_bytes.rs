//! The stand-ins for the exports of columns, selectors, contraction and unit scales on bytes: those on words,
//! with the bytes decoded before and the results encoded after.

use std::slice::{from_raw_parts, from_raw_parts_mut};

use super::parameters::sens_parameter_jacobian;
use super::sensitivity::{
    rows_of, sens_contraction_first, sens_contraction_third, sens_operand_selector,
    sens_right_side, sens_served_unit_scale,
};
use super::{f64s, u32s, Pointer};

/// As many words as a slice may have.
const HELD: usize = 6544;

/// A decoded network.
struct Network(Vec<u32>, Vec<f64>, Vec<u32>, Vec<f64>);

macro_rules! network {
    ($w:expr, $wl:expr, $r:expr, $rl:expr, $ti:expr, $til:expr, $tc:expr, $tcl:expr) => {{
        let (w, r) = (u32s(from_raw_parts($w, $wl)), f64s(from_raw_parts($r, $rl)));
        let (ti, tc) = (u32s(from_raw_parts($ti, $til)), f64s(from_raw_parts($tc, $tcl)));
        match (w, r, ti, tc) {
            (Some(w), Some(r), Some(ti), Some(tc)) => Network(w, r, ti, tc),
            _ => return 1,
        }
    }};
}

/// The words of a slice, or the way out with 1.
macro_rules! words {
    ($decoded:expr) => {
        match $decoded {
            Some(words) if words.len() <= HELD => words,
            _ => return 1,
        }
    };
}

unsafe fn out<'a>(at: *mut u8, length: usize) -> &'a mut [u8] {
    from_raw_parts_mut(at, length)
}

/// The first words into the front of an output.
fn encode(words: &[f64], count: usize, out: &mut [u8]) {
    for (place, x) in words[..count].iter().enumerate() {
        out[8 * place..8 * place + 8].copy_from_slice(&x.to_bits().to_le_bytes());
    }
}

fn encode_words(words: &[u32], count: usize, out: &mut [u8]) {
    for (place, x) in words[..count].iter().enumerate() {
        out[4 * place..4 * place + 4].copy_from_slice(&x.to_le_bytes());
    }
}

#[no_mangle]
#[allow(clippy::too_many_arguments)]
pub unsafe extern "C" fn capi_parameter_jacobian(
    w: Pointer,
    wl: usize,
    r: Pointer,
    rl: usize,
    ti: Pointer,
    til: usize,
    tc: Pointer,
    tcl: usize,
    s: Pointer,
    sl: usize,
    parameter: u32,
    column: u32,
    sheet: *mut u8,
    sheet_length: usize,
) -> u64 {
    let lent = [(w, wl), (r, rl), (ti, til), (tc, tcl)].map(|lent| from_raw_parts(lent.0, lent.1));
    let Network(w, r, ti, tc) = network!(w, wl, r, rl, ti, til, tc, tcl);
    let s = words!(f64s(from_raw_parts(s, sl)));
    let mut words = vec![0.0; sheet_length / 8];
    let number = sens_parameter_jacobian(
        w.as_ptr(),
        w.len(),
        r.as_ptr(),
        r.len(),
        ti.as_ptr(),
        ti.len(),
        tc.as_ptr(),
        tc.len(),
        s.as_ptr(),
        s.len(),
        parameter,
        &column,
        1,
        words.as_mut_ptr(),
        words.len(),
    );
    if number > 0 {
        return u64::from(number);
    }
    encode(&words, rows_of(lent).dim, out(sheet, sheet_length));
    256
}

#[no_mangle]
#[allow(clippy::too_many_arguments)]
pub unsafe extern "C" fn capi_operand_selector(
    w: Pointer,
    wl: usize,
    r: Pointer,
    rl: usize,
    ti: Pointer,
    til: usize,
    tc: Pointer,
    tcl: usize,
    operand: u32,
    sign: *mut u8,
    sign_length: usize,
    counts: *mut u8,
    counts_length: usize,
    rows: *mut u8,
    rows_length: usize,
    weights: *mut u8,
    weights_length: usize,
) -> u64 {
    let Network(w, r, ti, tc) = network!(w, wl, r, rl, ti, til, tc, tcl);
    let (mut signs, mut weighed) = (vec![0.0; sign_length / 8], vec![0.0; weights_length / 8]);
    let (mut counted, mut listed) = (vec![0; counts_length / 4], vec![0; rows_length / 4]);
    let mut count = 0;
    let number = sens_operand_selector(
        w.as_ptr(),
        w.len(),
        r.as_ptr(),
        r.len(),
        ti.as_ptr(),
        ti.len(),
        tc.as_ptr(),
        tc.len(),
        operand,
        signs.as_mut_ptr(),
        signs.len(),
        counted.as_mut_ptr(),
        counted.len(),
        listed.as_mut_ptr(),
        listed.len(),
        weighed.as_mut_ptr(),
        weighed.len(),
        &mut count,
    );
    if number > 0 {
        return u64::from(number);
    }
    encode(&signs, 1, out(sign, sign_length));
    encode_words(&counted, count, out(counts, counts_length));
    encode_words(&listed, count, out(rows, rows_length));
    encode(&weighed, count, out(weights, weights_length));
    256 * count as u64
}

#[no_mangle]
#[allow(clippy::too_many_arguments)]
pub unsafe extern "C" fn capi_contraction_first(
    w: Pointer,
    wl: usize,
    r: Pointer,
    rl: usize,
    ti: Pointer,
    til: usize,
    tc: Pointer,
    tcl: usize,
    mode: u32,
    sign: f64,
    entries: u32,
    rows: Pointer,
    rows_length: usize,
    weights: Pointer,
    weights_length: usize,
    selection: *mut u8,
    selection_length: usize,
) -> u64 {
    let Network(w, r, ti, tc) = network!(w, wl, r, rl, ti, til, tc, tcl);
    let rows = words!(u32s(from_raw_parts(rows, rows_length)));
    let weights = words!(f64s(from_raw_parts(weights, weights_length)));
    let mut words = vec![0.0; selection_length / 8];
    let mut count = 0;
    let number = sens_contraction_first(
        w.as_ptr(),
        w.len(),
        r.as_ptr(),
        r.len(),
        ti.as_ptr(),
        ti.len(),
        tc.as_ptr(),
        tc.len(),
        mode,
        sign,
        &entries,
        1,
        rows.as_ptr(),
        rows.len(),
        weights.as_ptr(),
        weights.len(),
        1,
        words.as_mut_ptr(),
        words.len(),
        &mut count,
    );
    if number > 0 {
        return u64::from(number);
    }
    if mode == 1 {
        encode(&words, count, out(selection, selection_length));
    }
    256 * count as u64
}

#[no_mangle]
#[allow(clippy::too_many_arguments)]
pub unsafe extern "C" fn capi_right_side(
    mode: u32,
    count: usize,
    parameter: Pointer,
    parameter_length: usize,
    selection: Pointer,
    selection_length: usize,
    sheet: *mut u8,
    sheet_length: usize,
) -> usize {
    let sheets = [(parameter, parameter_length), (selection, selection_length)];
    if sheets.iter().any(|lent| lent.1 % 8 != 0 || lent.1 > 8 * HELD) {
        return 0;
    }
    let [parameter, selection] = sheets.map(|lent| f64s(from_raw_parts(lent.0, lent.1)));
    let (parameter, selection) = (parameter.unwrap_or_default(), selection.unwrap_or_default());
    let mut words = vec![0.0; sheet_length / 8];
    let part = sens_right_side(
        mode,
        count,
        parameter.as_ptr(),
        parameter.len(),
        selection.as_ptr(),
        selection.len(),
        words.as_mut_ptr(),
        words.len(),
    );
    if part <= words.len() {
        encode(&words, part, out(sheet, sheet_length));
    }
    part
}

#[no_mangle]
#[allow(clippy::too_many_arguments)]
pub unsafe extern "C" fn capi_contraction_third(
    w: Pointer,
    wl: usize,
    r: Pointer,
    rl: usize,
    ti: Pointer,
    til: usize,
    tc: Pointer,
    tcl: usize,
    mode: u32,
    sign: f64,
    entries: u32,
    rows: Pointer,
    rows_length: usize,
    weights: Pointer,
    weights_length: usize,
    parameter: Pointer,
    parameter_length: usize,
    solved: Pointer,
    solved_length: usize,
    sheet: *mut u8,
    sheet_length: usize,
) -> u64 {
    let Network(w, r, ti, tc) = network!(w, wl, r, rl, ti, til, tc, tcl);
    let rows = words!(u32s(from_raw_parts(rows, rows_length)));
    let weights = words!(f64s(from_raw_parts(weights, weights_length)));
    let parameter = words!(f64s(from_raw_parts(parameter, parameter_length)));
    let solved = words!(f64s(from_raw_parts(solved, solved_length)));
    let mut words = vec![0.0; sheet_length / 8];
    let mut count = 0;
    let number = sens_contraction_third(
        w.as_ptr(),
        w.len(),
        r.as_ptr(),
        r.len(),
        ti.as_ptr(),
        ti.len(),
        tc.as_ptr(),
        tc.len(),
        mode,
        sign,
        &entries,
        1,
        rows.as_ptr(),
        rows.len(),
        weights.as_ptr(),
        weights.len(),
        1,
        parameter.as_ptr(),
        parameter.len(),
        solved.as_ptr(),
        solved.len(),
        words.as_mut_ptr(),
        words.len(),
        &mut count,
    );
    if number > 0 {
        return u64::from(number);
    }
    encode(&words, count, out(sheet, sheet_length));
    256 * count as u64
}

#[no_mangle]
pub unsafe extern "C" fn capi_served_unit_scale(
    operand: u32,
    parameter: u32,
    base: f64,
    sheet: *mut u8,
    sheet_length: usize,
) -> u64 {
    let mut words = vec![0.0; sheet_length / 8];
    let mut count = 0;
    let number = sens_served_unit_scale(
        operand,
        parameter,
        base,
        words.as_mut_ptr(),
        words.len(),
        &mut count,
    );
    if number > 0 {
        return u64::from(number);
    }
    encode(&words, count, out(sheet, sheet_length));
    256 * count as u64
}
