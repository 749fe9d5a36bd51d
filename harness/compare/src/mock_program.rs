//! Stand-ins for the exports of the program. Numbers are made here, values come from the original.

use std::slice::from_raw_parts;

use super::{bad, f64s, flat, put, solved, u32s, Pointer, Site};

/// Columns and rows of the program, from words whose lengths hold.
fn sizes(w: &[u32], r: &[f64]) -> (usize, usize) {
    let c: Vec<usize> = w[..7].iter().map(|&count| count as usize).collect();
    let (n, m, k, refs, s, q) = (c[0], c[1], c[2], c[3], c[4], c[5]);
    let own = &w[9 + 2 * m + k..][..k];
    let flags = &w[9 + 2 * m + 2 * k + refs..][..k + 2 * m];
    let masks = &w[9 + 4 * m + 3 * k + refs..][..q];
    let demand = &r[1 + 7 * m + 5 * k + n..][..n];
    let (upper, lower) = r[r.len() - 2 * q..].split_at(q);
    let mut columns = n + k + m;
    let mut rows = n + m + refs + s;
    columns += own.iter().filter(|&&own| own != 0).count();
    rows += 2 * flags.iter().filter(|&&flag| flag != 0).count();
    for &demand in demand {
        if w[7] == 1 && demand > 0.0 {
            columns += 1;
            rows += 2;
        }
    }
    for (row, &mask) in masks.iter().enumerate() {
        rows += match mask {
            1 | 2 => 1,
            3 => 1 + usize::from(upper[row] != lower[row]),
            _ => 0,
        };
    }
    (columns, rows)
}

fn original(lent: [&[u8]; 4]) -> oracle::Oracle {
    oracle::Oracle::new(&oracle::Network {
        wiring: u32s(lent[0]).unwrap_or_default(),
        readings: f64s(lent[1]).unwrap_or_default(),
        term_index: u32s(lent[2]).unwrap_or_default(),
        term_coefficient: f64s(lent[3]).unwrap_or_default(),
    })
}

export!(capi_nodal_marginal_values(
    sheet: Pointer, sheet_length: usize, out: *mut u8, length: usize
) lent, site =>
    solved(lent, site, from_raw_parts(sheet, sheet_length), false)
        .map(|(oracle, words)| put(&oracle.nodal_marginal_values(&words), out, length)));

/// Raw vectors with their network's number.
fn tested(
    lent: [&[u8]; 4],
    site: Result<Site, u64>,
    x: &[u8],
    z: &[u8],
    objective: f64,
) -> Result<(Vec<f64>, Vec<f64>), u64> {
    if let Err(1) = site {
        return Err(1);
    }
    let (x, z) = (f64s(x).ok_or(1u64)?, f64s(z).ok_or(1u64)?);
    let w = u32s(lent[0]).unwrap_or_default();
    let r = f64s(lent[1]).unwrap_or_default();
    if (x.len(), z.len()) != sizes(&w, &r) {
        return Err(1);
    }
    site?;
    if x.iter().chain(&z).chain(&[objective]).any(|&word| bad(word, 1e12)) {
        return Err(3);
    }
    Ok((x, z))
}

export!(capi_read_dc_solution(
    x: Pointer, xl: usize, z: Pointer, zl: usize, bits: u64, out: *mut u8, length: usize
) lent, site => {
    let objective = f64::from_bits(bits);
    tested(lent, site, from_raw_parts(x, xl), from_raw_parts(z, zl), objective).map(|(x, z)| {
        put(&original(lent).read_dc_solution(&x, &z, objective), out, length)
    })
});

/// Writes words to the front of a lent output that has room.
unsafe fn put_words(words: impl Iterator<Item = usize>, out: *mut u8) {
    for (place, word) in words.enumerate() {
        let bytes = (word as u32).to_le_bytes();
        std::ptr::copy_nonoverlapping(bytes.as_ptr(), out.add(4 * place), 4);
    }
}

export!(capi_assemble_opf(
    pr: *mut u8, prl: usize,
    pc: *mut u8, pcl: usize,
    pv: *mut u8, pvl: usize,
    ar: *mut u8, arl: usize,
    ac: *mut u8, acl: usize,
    av: *mut u8, avl: usize,
    q: *mut u8, ql: usize,
    b: *mut u8, bl: usize,
    cones: *mut u8, conesl: usize
) lent, site => site.and_then(|_| {
    let program = original(lent).assemble();
    let p_room = (prl / 4).min(pcl / 4).min(pvl / 8);
    let a_room = (arl / 4).min(acl / 4).min(avl / 8);
    if p_room < program.p.len()
        || a_room < program.a.len()
        || ql / 8 < program.q.len()
        || bl / 8 < program.b.len()
        || conesl / 4 < program.cones.len()
    {
        return Err(7);
    }
    for (list, rows, cols, values, length) in
        [(&program.p, pr, pc, pv, pvl), (&program.a, ar, ac, av, avl)]
    {
        put_words(list.iter().map(|triplet| triplet.0), rows);
        put_words(list.iter().map(|triplet| triplet.1), cols);
        put(&list.iter().map(|triplet| triplet.2).collect::<Vec<f64>>(), values, length);
    }
    put(&program.q, q, ql);
    put(&program.b, b, bl);
    put_words(program.cones.iter().copied(), cones);
    Ok((program.a.len() as u64) << 8 | (program.p.len() as u64) << 32)
}));

#[no_mangle]
#[allow(clippy::too_many_arguments)]
pub unsafe extern "C" fn problem_assemble_opf(
    w: *const u32,
    wl: usize,
    r: *const f64,
    rl: usize,
    ti: *const u32,
    til: usize,
    tc: *const f64,
    tcl: usize,
    pr: *mut u32,
    prl: usize,
    pc: *mut u32,
    pcl: usize,
    pv: *mut f64,
    pvl: usize,
    ar: *mut u32,
    arl: usize,
    ac: *mut u32,
    acl: usize,
    av: *mut f64,
    avl: usize,
    q: *mut f64,
    ql: usize,
    b: *mut f64,
    bl: usize,
    cones: *mut u32,
    conesl: usize,
) -> u64 {
    capi_assemble_opf(
        w as Pointer,
        4 * wl,
        r as Pointer,
        8 * rl,
        ti as Pointer,
        4 * til,
        tc as Pointer,
        8 * tcl,
        pr as *mut u8,
        4 * prl,
        pc as *mut u8,
        4 * pcl,
        pv as *mut u8,
        8 * pvl,
        ar as *mut u8,
        4 * arl,
        ac as *mut u8,
        4 * acl,
        av as *mut u8,
        8 * avl,
        q as *mut u8,
        8 * ql,
        b as *mut u8,
        8 * bl,
        cones as *mut u8,
        4 * conesl,
    )
}
