//! The exports of the program: assembly, reading a solver's columns back, marginal values.

use super::{In, Network, Out};

/// P's and A's rows, columns and values, q, b, cone sizes.
pub type Sheets = [Out; 9];

pub fn nodal_marginal_values(net: Network, solution: In, out: Out) -> u64 {
    let s = solution;
    let answer = call!(capi_nodal_marginal_values, net, s.at, s.length, out.at, out.length);
    broken::nodal(solution, net, out, answer)
}

pub fn read_dc_solution(net: Network, x: In, z: In, objective_bits: u64, out: Out) -> u64 {
    let answer = call!(
        capi_read_dc_solution,
        net,
        x.at,
        x.length,
        z.at,
        z.length,
        objective_bits,
        out.at,
        out.length
    );
    let answer = broken::raw_limit(x, answer);
    broken::feasibility(net, objective_bits, out, broken::shed_dual(net, out, answer))
}

pub fn assemble_opf(net: Network, sheets: Sheets) -> u64 {
    let lent = broken::first(sheets[7]);
    let answer = call!(
        capi_assemble_opf,
        net,
        sheets[0].at,
        sheets[0].length,
        sheets[1].at,
        sheets[1].length,
        sheets[2].at,
        sheets[2].length,
        sheets[3].at,
        sheets[3].length,
        sheets[4].at,
        sheets[4].length,
        sheets[5].at,
        sheets[5].length,
        sheets[6].at,
        sheets[6].length,
        sheets[7].at,
        sheets[7].length,
        sheets[8].at,
        sheets[8].length
    );
    broken::right_side(sheets[7], lent, answer);
    broken::thermal_rows(net, sheets, answer);
    broken::linear_cost(net, sheets[6], answer);
    broken::cone(net, sheets[8], answer);
    broken::exchanged(broken::short(sheets, answer))
}

/// The same by words: the network must have whole words, and bytes after an output's last
/// whole word aren't lent.
pub fn typed_assemble_opf(net: Network, sheets: Sheets) -> u64 {
    let words = |sheet: Out| (typed::<u32>(sheet.at) as *mut u32, sheet.length / 4);
    let doubles = |sheet: Out| (typed::<f64>(sheet.at) as *mut f64, sheet.length / 8);
    let [pr, pc, pv, ar, ac, av, q, b, cones] = sheets;
    let (pr, pc, pv) = (words(pr), words(pc), doubles(pv));
    let (ar, ac, av) = (words(ar), words(ac), doubles(av));
    let (q, b, cones) = (doubles(q), doubles(b), words(cones));
    // The memory behind each slice is a `Memory`'s, alive and of at least that length.
    unsafe {
        exports::problem_assemble_opf(
            typed::<u32>(net.wiring.at),
            net.wiring.length / 4,
            typed::<f64>(net.readings.at),
            net.readings.length / 8,
            typed::<u32>(net.term_index.at),
            net.term_index.length / 4,
            typed::<f64>(net.term_coefficient.at),
            net.term_coefficient.length / 8,
            pr.0,
            pr.1,
            pc.0,
            pc.1,
            pv.0,
            pv.1,
            ar.0,
            ar.1,
            ac.0,
            ac.1,
            av.0,
            av.1,
            q.0,
            q.1,
            b.0,
            b.1,
            cones.0,
            cones.1,
        )
    }
}

/// A lent slice's first word.
fn typed<T>(at: *const u8) -> *const T {
    assert!(at as usize % std::mem::align_of::<T>() == 0, "a typed slice begins at a word");
    at as *const T
}

/// Deliberately wrong answers, one a feature. Without features each passes its answer on.
mod broken {
    use super::{In, Network, Out, Sheets};
    use crate::abi::broken::site;
    use crate::paper::{
        double, doubles, set_bits, set_word, word, Block, Count, OBJECTIVE, READING_LIMIT,
    };

    /// The marginal value of the last bus is per unit.
    pub fn nodal(solution: In, net: Network, out: Out, answer: u64) -> u64 {
        if cfg!(feature = "broken_nodal") && answer % 256 == 0 && answer > 0 {
            let last = site(net).shape().blocks.range(Block::NuBal).end - 1;
            let per_unit = double(unsafe { solution.bytes() }, last);
            set_bits(unsafe { out.bytes() }, (answer / 256) as usize - 1, per_unit.to_bits());
        }
        answer
    }

    /// A word of x at the limit itself is refused.
    pub fn raw_limit(x: In, answer: u64) -> u64 {
        let refused = cfg!(feature = "broken_raw_limit") && answer % 256 == 0;
        let at_limit = |x: &f64| x.abs() == READING_LIMIT;
        if refused && doubles(unsafe { x.bytes() }).iter().any(at_limit) {
            return 3;
        }
        answer
    }

    /// A bus without a shed column has no dual of its lower bound.
    pub fn shed_dual(net: Network, out: Out, answer: u64) -> u64 {
        if cfg!(feature = "broken_shed_dual") && answer % 256 == 0 && answer > 0 {
            let site = site(net);
            let duals = site.shape().blocks.range(Block::MuLb);
            for (bus, place) in duals.enumerate() {
                if site.oracle().shed_cap(bus) <= 0.0 {
                    set_bits(unsafe { out.bytes() }, place, 0);
                }
            }
        }
        answer
    }

    /// The objective of a feasibility problem is the solver's.
    pub fn feasibility(net: Network, objective_bits: u64, out: Out, answer: u64) -> u64 {
        if cfg!(feature = "broken_feasibility") && answer % 256 == 0 && answer > 0 {
            if word(unsafe { net.wiring.bytes() }, OBJECTIVE) == 0 {
                set_bits(unsafe { out.bytes() }, (answer / 256) as usize - 1, objective_bits);
            }
        }
        answer
    }

    /// A sheet's first double as lent, where `right_side` will want it.
    pub fn first(sheet: Out) -> f64 {
        if cfg!(feature = "broken_right_side") && sheet.length >= 8 {
            return double(unsafe { sheet.bytes() }, 0);
        }
        0.0
    }

    /// The first right side is added to what was lent instead of set.
    pub fn right_side(b: Out, lent: f64, answer: u64) {
        if cfg!(feature = "broken_right_side") && answer % 256 == 0 && answer > 0 {
            let bytes = unsafe { b.bytes() };
            if bytes.len() >= 8 {
                let sum = lent + double(bytes, 0);
                set_bits(bytes, 0, sum.to_bits());
            }
        }
    }

    /// A branch's upper and lower thermal rows are exchanged in A.
    pub fn thermal_rows(net: Network, sheets: Sheets, answer: u64) {
        if cfg!(feature = "broken_thermal_rows") && answer % 256 == 0 && answer > 0 {
            let thermal = site(net).oracle().layout().thermal;
            let rows = unsafe { sheets[3].bytes() };
            for (upper, lower) in thermal.into_iter().flatten() {
                for triplet in 0..(answer >> 8 & 0x00FF_FFFF) as usize {
                    let row = word(rows, triplet) as usize;
                    if row == upper || row == lower {
                        set_word(rows, triplet, (upper + lower - row) as u32);
                    }
                }
            }
        }
    }

    /// The first linear cost that isn't zero gets the wrong sign.
    pub fn linear_cost(net: Network, q: Out, answer: u64) {
        if cfg!(feature = "broken_linear_cost") && answer % 256 == 0 && answer > 0 {
            let columns = site(net).oracle().layout().columns;
            let bytes = unsafe { q.bytes() };
            if let Some(column) = (0..columns).find(|&column| double(bytes, column) != 0.0) {
                bytes[8 * column + 7] ^= 0x80;
            }
        }
    }

    /// A cone is listed that has no row.
    pub fn cone(net: Network, cones: Out, answer: u64) {
        if cfg!(feature = "broken_cone") && answer % 256 == 0 && cones.length >= 12 {
            let site = site(net);
            if site.shape().count(Count::Rows) == 0 {
                set_word(unsafe { cones.bytes() }, 2, 0);
            }
        }
    }

    /// Where any output is short, the first bytes of the others move.
    pub fn short(sheets: Sheets, answer: u64) -> u64 {
        if cfg!(feature = "broken_short_program") && answer == 7 {
            for sheet in sheets {
                if let Some(byte) = unsafe { sheet.bytes() }.first_mut() {
                    *byte ^= 1;
                }
            }
        }
        answer
    }

    /// A's and P's counts are exchanged.
    pub fn exchanged(answer: u64) -> u64 {
        if cfg!(feature = "broken_exchanged") && answer % 256 == 0 {
            return (answer >> 32) << 8 | (answer >> 8 & 0x00FF_FFFF) << 32;
        }
        answer
    }
}
