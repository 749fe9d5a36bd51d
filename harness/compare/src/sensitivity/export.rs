//! A call of an export on the memory that is lent.

use crate::calls::Site;
use crate::sensitivity::broken;
use crate::sensitivity::call::{Ask, Call, Contraction};
use crate::sensitivity::memory::Memory;

/// Calls an export on the network that is lent and further arguments.
macro_rules! on_network {
    ($export:ident, $memory:expr $(, $argument:expr)*) => {{
        let [wiring, readings, term_index, term_coefficient] = $memory.network();
        // The memory behind each slice is a slot's, alive, aligned and of that length.
        unsafe {
            exports::$export(
                wiring.start() as _,
                wiring.length() / 4,
                readings.start() as _,
                readings.length() / 8,
                term_index.start() as _,
                term_index.length() / 4,
                term_coefficient.start() as _,
                term_coefficient.length() / 8
                $(, $argument)*
            )
        }
    }};
}

/// Makes the call on the network that is lent.
pub fn call(memory: &mut Memory, site: &Site, ask: &Ask) -> u64 {
    memory.fill(ask);
    let room = ask.rooms[0];
    let answer = match &ask.call {
        Call::OperandSelector { operand } => operand_selector(memory, ask, *operand),
        Call::First { contraction } => first(memory, ask, contraction),
        Call::RightSide { mode, count, .. } => right_side(memory, ask, *mode, *count),
        Call::Third { contraction, .. } => third(memory, ask, contraction),
        Call::UnitScale { operand, parameter, base } => {
            memory.watch(ask, *operand, base.to_bits());
            let (out, count) = (memory.sheet(0), memory.count());
            let answer = unsafe {
                exports::sens_served_unit_scale(*operand, *parameter, *base, out, room, count)
            };
            u64::from(answer)
        }
    };
    broken::answer(memory, site, ask, answer)
}

fn operand_selector(memory: &Memory, ask: &Ask, operand: u32) -> u64 {
    memory.watch(ask, operand, 0);
    let [sign, counts, rows, weights] = ask.rooms;
    u64::from(on_network!(
        sens_operand_selector,
        memory,
        operand,
        memory.sheet(0),
        sign,
        memory.sheet(1),
        counts,
        memory.sheet(2),
        rows,
        memory.sheet(3),
        weights,
        memory.count()
    ))
}

fn first(memory: &Memory, ask: &Ask, contraction: &Contraction) -> u64 {
    memory.watch(ask, contraction.mode, contraction.columns as u64);
    let [counts, rows, weights, ..] = memory.lists();
    u64::from(on_network!(
        sens_contraction_first,
        memory,
        broken::mode(contraction.mode),
        contraction.selector.sign,
        counts.start() as _,
        counts.length() / 4,
        rows.start() as _,
        rows.length() / 4,
        weights.start() as _,
        weights.length() / 8,
        contraction.columns,
        memory.sheet(0),
        ask.rooms[0],
        memory.count()
    ))
}

fn right_side(memory: &Memory, ask: &Ask, mode: u32, count: usize) -> u64 {
    memory.watch(ask, mode, count as u64);
    let [parameter, selection, ..] = memory.lists();
    // The memory behind each slice is a slot's, alive, aligned and of that length.
    let part = unsafe {
        exports::sens_right_side(
            broken::side(mode),
            count,
            parameter.start() as _,
            parameter.length() / 8,
            selection.start() as _,
            selection.length() / 8,
            memory.sheet(0),
            ask.rooms[0],
        )
    };
    part as u64
}

fn third(memory: &Memory, ask: &Ask, contraction: &Contraction) -> u64 {
    memory.watch(ask, contraction.mode, contraction.columns as u64);
    let [counts, rows, weights, parameter, solved] = memory.lists();
    u64::from(on_network!(
        sens_contraction_third,
        memory,
        broken::mode(contraction.mode),
        contraction.selector.sign,
        counts.start() as _,
        counts.length() / 4,
        rows.start() as _,
        rows.length() / 4,
        weights.start() as _,
        weights.length() / 8,
        contraction.columns,
        parameter.start() as _,
        parameter.length() / 8,
        solved.start() as _,
        solved.length() / 8,
        memory.sheet(0),
        ask.rooms[0],
        memory.count()
    ))
}
