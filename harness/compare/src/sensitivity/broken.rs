//! Deliberately wrong answers, one a feature. Without features each passes its answer on.

use crate::calls::Site;
use crate::paper::{double, within, PARAMETER_LIMIT};
use crate::sensitivity::call::{Ask, Call, Contraction};
use crate::sensitivity::memory::Memory;
use crate::sensitivity::rules::{self, ADJOINT, AUTO, FLOW, FORWARD};

/// `Auto` is served as forward.
pub fn mode(mode: u32) -> u32 {
    if cfg!(feature = "broken_auto") && mode == AUTO {
        return FORWARD;
    }
    mode
}

/// The right side is the other sheet's.
pub fn side(mode: u32) -> u32 {
    match mode {
        FORWARD if cfg!(feature = "broken_sides") => ADJOINT,
        ADJOINT if cfg!(feature = "broken_sides") => FORWARD,
        _ => mode,
    }
}

pub fn answer(memory: &mut Memory, site: &Site, ask: &Ask, answer: u64) -> u64 {
    let refused = answer > 0 && !matches!(ask.call, Call::RightSide { .. });
    if cfg!(feature = "broken_moved_count") && refused {
        unsafe { *memory.count() = 0 };
    }
    if refused {
        return wrapped_columns(memory, site, ask, answer);
    }
    match &ask.call {
        Call::OperandSelector { operand: FLOW } => flow_rows(memory),
        Call::First { contraction } if contraction.mode == ADJOINT => {
            repeated_row(memory, rules::dim(site), contraction);
        }
        Call::Third { contraction, parameter, .. } => {
            contraction_word(memory, contraction);
            return parameter_tail(parameter, answer);
        }
        Call::UnitScale { operand, base, .. } => price_scale(memory, *operand, *base),
        _ => {}
    }
    answer
}

/// Each row of a flow is the next branch's.
fn flow_rows(memory: &mut Memory) {
    if cfg!(feature = "broken_flow_rows") {
        let rows: &mut [u32] =
            unsafe { std::slice::from_raw_parts_mut(memory.sheet(2), *memory.count()) };
        for row in rows {
            *row += 1;
        }
    }
}

/// A row that an element names twice holds the last of its weights.
fn repeated_row(memory: &mut Memory, dim: usize, contraction: &Contraction) {
    if cfg!(feature = "broken_repeated_row") {
        for (element, entries) in contraction.selector.map().iter().enumerate() {
            for &(row, weight) in entries {
                unsafe { *memory.sheet::<f64>(0).add(dim * element + row) = weight };
            }
        }
    }
}

/// The last element's last column is left as it was.
fn contraction_word(memory: &mut Memory, contraction: &Contraction) {
    let words = contraction.elements() * contraction.columns;
    if cfg!(feature = "broken_contraction_word") && words > 0 {
        let word = double(memory.before(0), words - 1);
        unsafe { *memory.sheet::<f64>(0).add(words - 1) = word };
    }
}

/// Words behind the parameter columns are looked at.
fn parameter_tail(parameter: &[f64], answer: u64) -> u64 {
    let broken = || parameter.iter().any(|&x| !within(x, PARAMETER_LIMIT));
    if cfg!(feature = "broken_parameter_tail") && broken() {
        return 3;
    }
    answer
}

/// A price is multiplied by the base.
fn price_scale(memory: &mut Memory, operand: u32, base: f64) {
    if cfg!(feature = "broken_price_scale") && operand < 2 {
        unsafe { *memory.sheet::<f64>(0) *= base };
    }
}

/// A count that 64 bits do not hold loses its upper bits.
fn wrapped_columns(memory: &mut Memory, site: &Site, ask: &Ask, answer: u64) -> u64 {
    if cfg!(feature = "broken_wrapped_columns") && answer == 1 {
        if let Call::First { contraction } = &ask.call {
            let fewer = Contraction { columns: 0, ..contraction.clone() };
            let fewer = Ask { call: Call::First { contraction: fewer }, ..ask.clone() };
            if rules::held(site, &fewer).lowest() == 0 {
                let count = rules::dim(site).wrapping_mul(contraction.columns);
                unsafe { *memory.count() = count };
                return 0;
            }
        }
    }
    answer
}
