//! A call of an export on the memory that is lent.

use crate::bytes::broken;
use crate::bytes::call::{Ask, Call, Element};
use crate::bytes::memory::{Lent, Memory};

/// Calls an export on the network that is lent and further arguments.
macro_rules! on_network {
    ($export:ident, $memory:expr $(, $argument:expr)*) => {{
        let [wiring, readings, term_index, term_coefficient] = $memory.network();
        // The memory behind each slice is a slot's, alive and of that length.
        unsafe {
            exports::$export(
                wiring.at,
                wiring.length,
                readings.at,
                readings.length,
                term_index.at,
                term_index.length,
                term_coefficient.at,
                term_coefficient.length
                $(, $argument)*
            )
        }
    }};
}

/// Makes the call on the network that is lent.
pub fn call(memory: &mut Memory, ask: &Ask) -> u64 {
    memory.fill(ask);
    let sheet = memory.sheet(0);
    match &ask.call {
        Call::ParameterJacobian { parameter, column, .. } => {
            let solution = memory.list(0);
            let answer = on_network!(
                capi_parameter_jacobian,
                memory,
                solution.at,
                solution.length,
                *parameter,
                *column,
                sheet.at,
                sheet.length
            );
            broken::column(sheet, answer)
        }
        Call::OperandSelector { operand } => operand_selector(memory, *operand),
        Call::First { element } => first(memory, element, broken::rows(memory.list(0))),
        Call::RightSide { mode, count, .. } => {
            let (parameter, selection) = (memory.list(0), memory.list(1));
            // The memory behind each slice is a slot's, alive and of that length.
            let part = unsafe { capi_right_side(*mode, *count, parameter, selection, sheet) };
            broken::part(*mode, *count, parameter, selection, part as u64)
        }
        Call::Third { element, .. } => broken::sign(element, sheet, third(memory, element)),
        Call::UnitScale { operand, parameter, base } => {
            let answer = unsafe {
                exports::capi_served_unit_scale(*operand, *parameter, *base, sheet.at, sheet.length)
            };
            broken::count(answer)
        }
    }
}

unsafe fn capi_right_side(
    mode: u32,
    count: usize,
    parameter: Lent,
    selection: Lent,
    sheet: Lent,
) -> usize {
    exports::capi_right_side(
        mode,
        count,
        parameter.at,
        parameter.length,
        selection.at,
        selection.length,
        sheet.at,
        sheet.length,
    )
}

fn operand_selector(memory: &Memory, operand: u32) -> u64 {
    let [sign, counts, rows, weights] = [0, 1, 2, 3].map(|sheet| memory.sheet(sheet));
    let answer = on_network!(
        capi_operand_selector,
        memory,
        operand,
        sign.at,
        sign.length,
        counts.at,
        counts.length,
        rows.at,
        rows.length,
        weights.at,
        weights.length
    );
    broken::row(rows, answer)
}

fn first(memory: &Memory, element: &Element, rows: Lent) -> u64 {
    let (weights, selection) = (memory.list(1), memory.sheet(0));
    on_network!(
        capi_contraction_first,
        memory,
        element.mode,
        element.sign,
        element.entries,
        rows.at,
        rows.length,
        weights.at,
        weights.length,
        selection.at,
        selection.length
    )
}

fn third(memory: &Memory, element: &Element) -> u64 {
    let [rows, weights, parameter, solved] = [0, 1, 2, 3].map(|list| memory.list(list));
    let out = memory.sheet(0);
    on_network!(
        capi_contraction_third,
        memory,
        element.mode,
        element.sign,
        element.entries,
        rows.at,
        rows.length,
        weights.at,
        weights.length,
        parameter.at,
        parameter.length,
        solved.at,
        solved.length,
        out.at,
        out.length
    )
}
