//! Stand-ins for the exports of site changes and for the typed matrix call.

use std::slice::from_raw_parts;

use super::{bad, capi_kkt_triplets, f64s, flat, put_list, solved, u32s, Pointer, Site};

/// Where the readings of a kind begin, and how many there are.
fn field(kind: u32, n: usize, m: usize, k: usize) -> Option<(usize, usize)> {
    let generators = 1 + 7 * m;
    match kind {
        1 => Some((generators + 5 * k + n, n)),
        2 => Some((1 + 4 * m, m)),
        3 => Some((1 + m, m)),
        4 => Some((1, m)),
        5 => Some((1 + 5 * m, m)),
        6 => Some((1 + 6 * m, m)),
        7 => Some((generators + 2 * k, k)),
        8 => Some((generators, k)),
        9 => Some((generators + k, k)),
        _ => None,
    }
}

/// The readings with a change made, and where it was made.
fn changed(lent: [&[u8]; 4], head: u32, value: f64) -> Result<(Vec<f64>, usize), u64> {
    let w = u32s(lent[0]).unwrap_or_default();
    let mut readings = f64s(lent[1]).unwrap_or_default();
    if bad(value, 1e12) {
        return Err(3);
    }
    let index = (head & 0x0FFF_FFFF) as usize;
    let (start, length) =
        field(head >> 28, w[0] as usize, w[1] as usize, w[2] as usize).ok_or(4u64)?;
    if index >= length {
        return Err(5);
    }
    readings[start + index] = value;
    Ok((readings, start + index))
}

#[no_mangle]
#[allow(clippy::too_many_arguments)]
pub unsafe extern "C" fn capi_change(
    w: Pointer,
    wl: usize,
    r: *mut u8,
    rl: usize,
    ti: Pointer,
    til: usize,
    tc: Pointer,
    tcl: usize,
    sheet: Pointer,
    sheet_length: usize,
    rows: *mut u8,
    rows_length: usize,
    cols: *mut u8,
    cols_length: usize,
    values: *mut u8,
    values_length: usize,
    head: u32,
    low: u32,
    high: u32,
) -> u64 {
    let old = from_raw_parts(r, rl).to_vec();
    let lent = [from_raw_parts(w, wl), &old[..], from_raw_parts(ti, til), from_raw_parts(tc, tcl)];
    let bits = u64::from(high) << 32 | u64::from(low);
    let sheet = from_raw_parts(sheet, sheet_length);
    let made = solved(lent, Site::read(lent), sheet, true).and_then(|(_, words)| {
        let (readings, place) = changed(lent, head, f64::from_bits(bits))?;
        let oracle = oracle::Oracle::new(&oracle::Network {
            wiring: u32s(lent[0]).unwrap_or_default(),
            readings,
            term_index: u32s(lent[2]).unwrap_or_default(),
            term_coefficient: f64s(lent[3]).unwrap_or_default(),
        });
        let list = oracle.jacobian(&words);
        Ok((put_list(&list, rows, rows_length, cols, cols_length, values, values_length), place))
    });
    flat(made.map(|(answer, place)| {
        if answer % 256 == 0 {
            std::ptr::copy_nonoverlapping(bits.to_le_bytes().as_ptr(), r.add(8 * place), 8);
        }
        answer
    }))
}

#[no_mangle]
#[allow(clippy::too_many_arguments)]
pub unsafe extern "C" fn site_change(
    w: *const u32,
    wl: usize,
    r: *mut f64,
    rl: usize,
    ti: *const u32,
    til: usize,
    tc: *const f64,
    tcl: usize,
    s: *const f64,
    sl: usize,
    rows: *mut u32,
    rows_length: usize,
    cols: *mut u32,
    cols_length: usize,
    values: *mut f64,
    values_length: usize,
    head: u32,
    low: u32,
    high: u32,
) -> u64 {
    let (w, r, ti, tc, s) =
        (w as Pointer, r as *mut u8, ti as Pointer, tc as Pointer, s as Pointer);
    let (rows, cols, values) = (rows as *mut u8, cols as *mut u8, values as *mut u8);
    let (rows_length, cols_length) = (4 * rows_length, 4 * cols_length);
    capi_change(
        w,
        4 * wl,
        r,
        8 * rl,
        ti,
        4 * til,
        tc,
        8 * tcl,
        s,
        8 * sl,
        rows,
        rows_length,
        cols,
        cols_length,
        values,
        8 * values_length,
        head,
        low,
        high,
    )
}

#[no_mangle]
#[allow(clippy::too_many_arguments)]
pub unsafe extern "C" fn site_run_changes(
    w: *const u32,
    wl: usize,
    r: *mut f64,
    rl: usize,
    ti: *const u32,
    til: usize,
    tc: *const f64,
    tcl: usize,
    s: *const f64,
    sl: usize,
    rows: *mut u32,
    rows_length: usize,
    cols: *mut u32,
    cols_length: usize,
    values: *mut f64,
    values_length: usize,
    changes: *const u32,
    changes_length: usize,
    numbers: *mut u32,
    numbers_length: usize,
    counted: *mut u32,
    counted_length: usize,
) -> u32 {
    let (w, r, ti, tc, s) =
        (w as Pointer, r as *mut u8, ti as Pointer, tc as Pointer, s as Pointer);
    let (rows, cols, values) = (rows as *mut u8, cols as *mut u8, values as *mut u8);
    let (rows_length, cols_length) = (4 * rows_length, 4 * cols_length);
    capi_run_changes(
        w,
        4 * wl,
        r,
        8 * rl,
        ti,
        4 * til,
        tc,
        8 * tcl,
        s,
        8 * sl,
        rows,
        rows_length,
        cols,
        cols_length,
        values,
        8 * values_length,
        changes as Pointer,
        4 * changes_length,
        numbers as *mut u8,
        4 * numbers_length,
        counted as *mut u8,
        4 * counted_length,
    )
}

#[no_mangle]
#[allow(clippy::too_many_arguments)]
pub unsafe extern "C" fn capi_run_changes(
    w: Pointer,
    wl: usize,
    r: *mut u8,
    rl: usize,
    ti: Pointer,
    til: usize,
    tc: Pointer,
    tcl: usize,
    s: Pointer,
    sl: usize,
    rows: *mut u8,
    rows_length: usize,
    cols: *mut u8,
    cols_length: usize,
    values: *mut u8,
    values_length: usize,
    changes: Pointer,
    changes_length: usize,
    numbers: *mut u8,
    numbers_length: usize,
    counted: *mut u8,
    counted_length: usize,
) -> u32 {
    if changes_length % 12 != 0 {
        return 1;
    }
    let count = changes_length / 12;
    if 4 * count > numbers_length.min(counted_length) {
        return 7;
    }
    for place in 0..count {
        let change: Vec<u32> = from_raw_parts(changes.add(12 * place), 12)
            .chunks_exact(4)
            .map(|word| u32::from_le_bytes([word[0], word[1], word[2], word[3]]))
            .collect();
        let answer = capi_change(
            w,
            wl,
            r,
            rl,
            ti,
            til,
            tc,
            tcl,
            s,
            sl,
            rows,
            rows_length,
            cols,
            cols_length,
            values,
            values_length,
            change[0],
            change[1],
            change[2],
        );
        let put = |sheet: *mut u8, word: u64| {
            let bytes = (word as u32).to_le_bytes();
            std::ptr::copy_nonoverlapping(bytes.as_ptr(), sheet.add(4 * place), 4);
        };
        put(numbers, answer % 256);
        put(counted, answer / 256);
    }
    0
}

#[no_mangle]
#[allow(clippy::too_many_arguments)]
pub unsafe extern "C" fn sens_kkt_triplets(
    w: *const u32,
    wl: usize,
    r: *const f64,
    rl: usize,
    ti: *const u32,
    til: usize,
    tc: *const f64,
    tcl: usize,
    s: *const f64,
    sl: usize,
    rows: *mut u32,
    rows_length: usize,
    cols: *mut u32,
    cols_length: usize,
    values: *mut f64,
    values_length: usize,
) -> u64 {
    let (w, r, ti, tc, s) =
        (w as Pointer, r as Pointer, ti as Pointer, tc as Pointer, s as Pointer);
    capi_kkt_triplets(
        w,
        4 * wl,
        r,
        8 * rl,
        ti,
        4 * til,
        tc,
        8 * tcl,
        s,
        8 * sl,
        rows as *mut u8,
        4 * rows_length,
        cols as *mut u8,
        4 * cols_length,
        values as *mut u8,
        8 * values_length,
    )
}
