//! Stand-ins for the exports, so that the program runs without the static library.
//! Written on its own: it shares no code with the paper's reading that it is checked by.

use std::collections::BTreeMap;
use std::slice::from_raw_parts;

#[path = "mock_change.rs"]
mod change;

type Pointer = *const u8;
type Term = (u32, f64);

struct Site {
    n: usize,
    m: usize,
    k: usize,
    q: usize,
    w: Vec<u32>,
    r: Vec<f64>,
    terms: Vec<Term>,
}

fn u32s(bytes: &[u8]) -> Option<Vec<u32>> {
    let whole = bytes.chunks_exact(4);
    if !whole.remainder().is_empty() {
        return None;
    }
    Some(whole.map(|c| u32::from_le_bytes([c[0], c[1], c[2], c[3]])).collect())
}

fn f64s(bytes: &[u8]) -> Option<Vec<f64>> {
    let pairs = u32s(bytes)?;
    if pairs.len() % 2 != 0 {
        return None;
    }
    let join = |pair: &[u32]| f64::from_bits(u64::from(pair[1]) << 32 | u64::from(pair[0]));
    Some(pairs.chunks(2).map(join).collect())
}

fn bad(x: f64, most: f64) -> bool {
    !(x >= -most && x <= most)
}

impl Site {
    fn read(lent: [&[u8]; 4]) -> Result<Site, u64> {
        let w = u32s(lent[0]).ok_or(1u64)?;
        let r = f64s(lent[1]).ok_or(1u64)?;
        let index = u32s(lent[2]).ok_or(1u64)?;
        let weight = f64s(lent[3]).ok_or(1u64)?;
        if w.len() < 9 {
            return Err(1);
        }
        let most = [256, 512, 256, 16, 1024, 64, 1024];
        if w.iter().zip(most).any(|(&count, most)| count > most) {
            return Err(1);
        }
        let c: Vec<usize> = w[..7].iter().map(|&count| count as usize).collect();
        let (n, m, k, refs, s, q, t) = (c[0], c[1], c[2], c[3], c[4], c[5], c[6]);
        if w.len() != 9 + 4 * m + 3 * k + refs + 3 * q
            || r.len() != 1 + 7 * m + 5 * k + 4 * n + 2 * s + 2 * q
            || index.len() != t
            || weight.len() != t
        {
            return Err(1);
        }
        let site = Site { n, m, k, q, w, r, terms: index.into_iter().zip(weight).collect() };
        let segments: u64 = (0..k).map(|g| u64::from(site.w[9 + 2 * m + k + g])).sum();
        let counted: u64 = site.w[site.w.len() - 2 * q..].iter().map(|&c| u64::from(c)).sum();
        if segments != s as u64 || counted != t as u64 {
            return Err(1);
        }
        site.words(refs)?;
        let base = site.r[0];
        if !(0.001..=1e6).contains(&base) || site.r[1..].iter().any(|&x| bad(x, 1e12)) {
            return Err(3);
        }
        if site.terms.iter().any(|term| bad(term.1, 1e12)) {
            return Err(3);
        }
        Ok(site)
    }

    /// Number 2.
    fn words(&self, refs: usize) -> Result<(), u64> {
        let (n, m, k, q) = (self.n as u32, self.m, self.k, self.q);
        let ends = [(2 * m, n), (k, n), (k, u32::MAX), (refs, n), (k, 2), (2 * m, 2), (q, 4)];
        let mut rest = &self.w[9..];
        for (length, end) in ends {
            let (list, after) = rest.split_at(length);
            if end != u32::MAX && list.iter().any(|&word| word >= end) {
                return Err(2);
            }
            rest = after;
        }
        if self.w[7] >= 2 || self.w[8] >= 3 {
            return Err(2);
        }
        for row in 0..q {
            let (flow, generation) = self.row(row);
            if flow.iter().any(|term| term.0 as usize >= m)
                || generation.iter().any(|term| term.0 as usize >= k)
            {
                return Err(2);
            }
        }
        Ok(())
    }

    fn row(&self, row: usize) -> (&[Term], &[Term]) {
        let counts = &self.w[self.w.len() - 2 * self.q..];
        let (flow, generation) = counts.split_at(self.q);
        let before: u32 = flow[..row].iter().chain(&generation[..row]).sum();
        let own = &self.terms[before as usize..];
        let (flow_terms, own) = own.split_at(flow[row] as usize);
        (flow_terms, &own[..generation[row] as usize])
    }

    fn branch(&self, block: usize, e: usize) -> f64 {
        self.r[1 + block * self.m + e]
    }

    fn generator(&self, block: usize, j: usize) -> f64 {
        self.r[1 + 7 * self.m + block * self.k + j]
    }

    fn bus(&self, block: usize, i: usize) -> f64 {
        self.r[1 + 7 * self.m + 5 * self.k + block * self.n + i]
    }

    fn ends(&self, e: usize) -> (usize, usize) {
        (self.w[9 + e] as usize, self.w[9 + self.m + e] as usize)
    }

    fn phase(&self) -> Vec<f64> {
        let mut at = vec![0.0; self.n];
        for e in 0..self.m {
            let offset = self.branch(1, e) * self.branch(3, e);
            let (i, j) = self.ends(e);
            at[i] += offset;
            at[j] -= offset;
        }
        at
    }

    fn network(&self) -> Vec<f64> {
        let phase = self.phase();
        (0..self.n).map(|i| self.bus(2, i) + phase[i] - self.bus(3, i)).collect()
    }

    fn cost(&self, j: usize, power: f64) -> f64 {
        let counts = &self.w[9 + 2 * self.m + self.k..][..self.k];
        let own = counts[j] as usize;
        if own == 0 {
            let (cq, cl, cc) = (self.generator(2, j), self.generator(3, j), self.generator(4, j));
            return cq * power * power + cl * power + cc;
        }
        let before: usize = counts[..j].iter().map(|&c| c as usize).sum();
        let all: usize = counts.iter().map(|&c| c as usize).sum();
        let slopes = &self.r[1 + 7 * self.m + 5 * self.k + 4 * self.n..];
        let mut best = slopes[before] * power + slopes[all + before];
        for segment in before + 1..before + own {
            let value = slopes[segment] * power + slopes[all + segment];
            if value > best {
                best = value;
            }
        }
        best
    }
}

/// Writes doubles to the front of a lent output.
unsafe fn put(words: &[f64], out: *mut u8, length: usize) -> u64 {
    if length / 8 < words.len() {
        return 7;
    }
    for (place, x) in words.iter().enumerate() {
        let bytes = x.to_bits().to_le_bytes();
        std::ptr::copy_nonoverlapping(bytes.as_ptr(), out.add(8 * place), 8);
    }
    256 * words.len() as u64
}

fn flat(answer: Result<u64, u64>) -> u64 {
    answer.unwrap_or_else(|number| number)
}

macro_rules! export {
    ($name:ident ( $($argument:ident : $type:ty),* ) $lent:ident, $site:ident => $body:expr) => {
        #[no_mangle]
        #[allow(clippy::too_many_arguments)]
        pub unsafe extern "C" fn $name(
            w: Pointer, wl: usize, r: Pointer, rl: usize,
            ti: Pointer, til: usize, tc: Pointer, tcl: usize
            $(, $argument: $type)*
        ) -> u64 {
            let $lent = [
                from_raw_parts(w, wl),
                from_raw_parts(r, rl),
                from_raw_parts(ti, til),
                from_raw_parts(tc, tcl),
            ];
            let $site = Site::read($lent);
            flat($body)
        }
    };
}

#[path = "mock_bytes.rs"]
mod bytes;
#[path = "mock_parameters.rs"]
mod parameters;
#[path = "mock_program.rs"]
mod program;
#[path = "mock_sensitivity.rs"]
mod sensitivity;

export!(capi_network_number() lent, site => site.map(|_| 0));

export!(capi_shed_cap(bus: usize, out: *mut u8, length: usize) lent, site => site.and_then(|site| {
    if bus >= site.n {
        return Err(5);
    }
    let demand = site.bus(1, bus);
    let cap = if site.w[7] == 1 && demand > 0.0 { demand } else { 0.0 };
    Ok(put(&[cap], out, length))
}));

export!(capi_current_flow_offset(e: usize, out: *mut u8, length: usize) lent, site => site.and_then(|site| {
    if e >= site.m {
        return Err(5);
    }
    Ok(put(&[site.branch(1, e) * site.branch(3, e)], out, length))
}));

export!(capi_generator_cost(j: usize, bits: u64, out: *mut u8, length: usize) lent, site => site.and_then(|site| {
    let power = f64::from_bits(bits);
    if bad(power, 1e12) {
        return Err(3);
    }
    if j >= site.k {
        return Err(5);
    }
    Ok(put(&[site.cost(j, power)], out, length))
}));

type Lists<'a> = [&'a [u8]; 2];

unsafe fn evaluated(
    lent: [&[u8]; 4],
    site: Result<Site, u64>,
    row: usize,
    lists: Lists,
    out: *mut u8,
    length: usize,
) -> Result<u64, u64> {
    let (f, pg) = (f64s(lists[0]), f64s(lists[1]));
    match (site, f, pg) {
        (Err(1), ..) | (_, None, _) | (_, _, None) => Err(1),
        (Err(number), Some(f), Some(pg)) => {
            // Lengths come first: read again what the counts say.
            let w = u32s(lent[0]).unwrap_or_default();
            let right = f.len() == w[1] as usize && pg.len() == w[2] as usize;
            Err(if right { number } else { 1 })
        }
        (Ok(site), Some(f), Some(pg)) => {
            if f.len() != site.m || pg.len() != site.k {
                Err(1)
            } else if f.iter().chain(&pg).any(|&x| bad(x, 1e15)) {
                Err(3)
            } else if row >= site.q {
                Err(5)
            } else {
                let (flow, generation) = site.row(row);
                let mut flows = 0.0;
                for term in flow {
                    flows += term.1 * f[term.0 as usize];
                }
                let mut generated = 0.0;
                for term in generation {
                    generated += term.1 * pg[term.0 as usize];
                }
                Ok(put(&[flows + generated], out, length))
            }
        }
    }
}

export!(capi_evaluate(row: usize, f: Pointer, fl: usize, pg: Pointer, pgl: usize, out: *mut u8, length: usize) lent, site => {
    evaluated(lent, site, row, [from_raw_parts(f, fl), from_raw_parts(pg, pgl)], out, length)
});

/// Records of twelve bytes are an index and a coefficient each; a slice that has other bytes too gives a
/// ragged slice of coefficients.
#[no_mangle]
#[allow(clippy::too_many_arguments)]
pub unsafe extern "C" fn capi_evaluate_terms(
    w: Pointer, wl: usize, r: Pointer, rl: usize, t: Pointer, tl: usize,
    row: usize, f: Pointer, fl: usize, pg: Pointer, pgl: usize, out: *mut u8, length: usize,
) -> u64 {
    let (mut index, mut coefficient) = (Vec::new(), Vec::new());
    for record in from_raw_parts(t, tl).chunks(12) {
        let (first, rest) = record.split_at(record.len().min(4));
        index.extend_from_slice(first);
        coefficient.extend_from_slice(rest);
    }
    if tl % 12 != 0 {
        coefficient.resize(coefficient.len() / 8 * 8 + 1, 0);
    }
    let lent = [from_raw_parts(w, wl), from_raw_parts(r, rl), &index[..], &coefficient[..]];
    let lists = [from_raw_parts(f, fl), from_raw_parts(pg, pgl)];
    flat(evaluated(lent, Site::read(lent), row, lists, out, length))
}

export!(capi_row_kind(row: usize) lent, site => site.and_then(|site| {
    if row >= site.q {
        return Err(5);
    }
    let mask = site.w[site.w.len() - 3 * site.q + row];
    let limits = &site.r[site.r.len() - 2 * site.q..];
    let equal = limits[row] == limits[site.q + row];
    Ok(256 * u64::from(if mask == 3 && equal { 4 } else { mask }))
}));

export!(capi_phase_withdrawal(out: *mut u8, length: usize) lent, site =>
    site.map(|site| put(&site.phase(), out, length)));

export!(capi_network_withdrawal(out: *mut u8, length: usize) lent, site =>
    site.map(|site| put(&site.network(), out, length)));

export!(capi_current_fixed_withdrawal(out: *mut u8, length: usize) lent, site => site.map(|site| {
    let network = site.network();
    let all: Vec<f64> = (0..site.n).map(|i| site.bus(1, i) + network[i]).collect();
    put(&all, out, length)
}));

export!(capi_susceptance_coo(
    rows: *mut u8, rows_length: usize, cols: *mut u8, cols_length: usize,
    values: *mut u8, values_length: usize
) lent, site => site.map(|site| {
    let mut cells: BTreeMap<(usize, usize), f64> = BTreeMap::new();
    for e in 0..site.m {
        let w = -site.branch(0, e) * site.branch(1, e);
        if w != 0.0 {
            let (i, j) = site.ends(e);
            for (cell, x) in [((i, i), w), ((j, j), w), ((i, j), -w), ((j, i), -w)] {
                *cells.entry(cell).or_insert(0.0) += x;
            }
        }
    }
    let count = cells.len();
    if rows_length / 4 < count || cols_length / 4 < count || values_length / 8 < count {
        return 7;
    }
    for (place, (cell, _)) in cells.iter().enumerate() {
        let (row, col) = ((cell.0 as u32).to_le_bytes(), (cell.1 as u32).to_le_bytes());
        std::ptr::copy_nonoverlapping(row.as_ptr(), rows.add(4 * place), 4);
        std::ptr::copy_nonoverlapping(col.as_ptr(), cols.add(4 * place), 4);
    }
    let sums: Vec<f64> = cells.into_values().collect();
    put(&sums, values, values_length)
}));

/// A tested solution sheet with the original to answer for it: the values of the four calls
/// below come from there, their numbers from here.
fn solved(
    lent: [&[u8]; 4],
    site: Result<Site, u64>,
    sheet: &[u8],
    exempt: bool,
) -> Result<(oracle::Oracle, Vec<f64>), u64> {
    if let Err(1) = site {
        return Err(1);
    }
    let words = f64s(sheet).ok_or(1u64)?;
    let w = u32s(lent[0]).unwrap_or_default();
    let c: Vec<usize> = w[..7].iter().map(|&count| count as usize).collect();
    let (n, m, k, s, q) = (c[0], c[1], c[2], c[4], c[5]);
    let piecewise = w[9 + 2 * m + k..][..k].iter().filter(|&&own| own != 0).count();
    if words.len() != 5 * (n + m) + 3 * k + piecewise + s + 2 * q + 1 {
        return Err(1);
    }
    site?;
    let tail = if exempt { q + 1 } else { 0 };
    if words[..words.len() - tail].iter().any(|&x| bad(x, 1e15)) {
        return Err(3);
    }
    let oracle = oracle::Oracle::new(&oracle::Network {
        wiring: w,
        readings: f64s(lent[1]).unwrap_or_default(),
        term_index: u32s(lent[2]).unwrap_or_default(),
        term_coefficient: f64s(lent[3]).unwrap_or_default(),
    });
    Ok((oracle, words))
}

export!(capi_snap(sheet: Pointer, sheet_length: usize, out: *mut u8, length: usize) lent, site =>
    solved(lent, site, from_raw_parts(sheet, sheet_length), false)
        .map(|(oracle, words)| put(&oracle.snap(&words), out, length)));

export!(capi_snap_linear(sheet: Pointer, sheet_length: usize, out: *mut u8, length: usize) lent, site =>
    solved(lent, site, from_raw_parts(sheet, sheet_length), false)
        .map(|(oracle, words)| put(&oracle.snap_linear(&words).concat(), out, length)));

export!(capi_nu_flow_values(sheet: Pointer, sheet_length: usize, out: *mut u8, length: usize) lent, site =>
    solved(lent, site, from_raw_parts(sheet, sheet_length), false)
        .map(|(oracle, words)| put(&oracle.nu_flow_values(&words), out, length)));

export!(capi_kkt_triplets(
    sheet: Pointer, sheet_length: usize, rows: *mut u8, rows_length: usize,
    cols: *mut u8, cols_length: usize, values: *mut u8, values_length: usize
) lent, site =>
    solved(lent, site, from_raw_parts(sheet, sheet_length), true).map(|(oracle, words)| {
        put_list(&oracle.jacobian(&words), rows, rows_length, cols, cols_length, values, values_length)
    }));

/// Writes triplets to the fronts of three lent outputs.
unsafe fn put_list(
    list: &[(usize, usize, f64)],
    rows: *mut u8,
    rows_length: usize,
    cols: *mut u8,
    cols_length: usize,
    values: *mut u8,
    values_length: usize,
) -> u64 {
    let room = (rows_length / 4).min(cols_length / 4).min(values_length / 8);
    if room < list.len() {
        return 7;
    }
    for (place, triplet) in list.iter().enumerate() {
        let (row, col) = ((triplet.0 as u32).to_le_bytes(), (triplet.1 as u32).to_le_bytes());
        std::ptr::copy_nonoverlapping(row.as_ptr(), rows.add(4 * place), 4);
        std::ptr::copy_nonoverlapping(col.as_ptr(), cols.add(4 * place), 4);
    }
    let list: Vec<f64> = list.iter().map(|triplet| triplet.2).collect();
    put(&list, values, values_length)
}
