//! The numbers of the calls, from the paper's order; values come from the original Rust.

use oracle::{End, Mode, Operand, Power, VoltageKind};

use crate::calls::Site;
use crate::paper::{
    base_within, within, Count, Held, Wire, PARAMETER_LIMIT, READING_LIMIT, SHEET_LIMIT,
};
use crate::sensitivity::call::{Ask, Call, Contraction, SHEETS};

pub use crate::parameters::rules::{dim, PARAMETERS};

/// Operands by their number: in the order of declaration, the last named turning first.
pub const OPERANDS: [Operand; 13] = [
    Operand::Price(Power::Active),
    Operand::Price(Power::Reactive),
    Operand::Dispatch(Power::Active),
    Operand::Dispatch(Power::Reactive),
    Operand::Flow { power: Power::Active, end: End::From },
    Operand::Flow { power: Power::Active, end: End::To },
    Operand::Flow { power: Power::Reactive, end: End::From },
    Operand::Flow { power: Power::Reactive, end: End::To },
    Operand::Voltage(VoltageKind::Magnitude),
    Operand::Voltage(VoltageKind::Angle),
    Operand::Voltage(VoltageKind::Squared),
    Operand::Voltage(VoltageKind::ProductReal),
    Operand::Voltage(VoltageKind::ProductImag),
];

pub const FLOW: u32 = 4;

/// The operands that are served, and what the elements of each are.
pub const SERVED: [(u32, Count, &str); 4] = [
    (0, Count::Buses, "0 active price"),
    (2, Count::Generators, "2 active dispatch"),
    (FLOW, Count::Branches, "4 active flow at the from end"),
    (9, Count::Buses, "9 voltage angle"),
];

/// The count of the operand's elements, if it is served.
pub fn served(operand: u32) -> Option<Count> {
    SERVED.iter().find(|served| served.0 == operand).map(|served| served.1)
}

pub const FORWARD: u32 = 0;
pub const ADJOINT: u32 = 1;
pub const AUTO: u32 = 2;

/// The original's mode, if it is one of the two that are served.
pub fn mode(code: u32) -> Option<Mode> {
    match code {
        FORWARD => Some(Mode::Forward),
        ADJOINT => Some(Mode::Adjoint),
        _ => None,
    }
}

/// A product of any two lengths.
pub fn product(a: usize, b: usize) -> u128 {
    a as u128 * b as u128
}

/// Whether every row's mask says how many rows of the matrix it has. Where one is outside its
/// values, the paper leaves dim open.
fn decided(site: &Site) -> bool {
    let masks = 0..site.shape().count(Count::Rows);
    masks.into_iter().all(|row| site.wire(Wire::RowMasks, row) <= 3)
}

/// Dim, where the paper says what it is.
fn decided_dim(site: &Site) -> Option<usize> {
    (site.shape.is_some() && decided(site)).then(|| dim(site))
}

/// "The right side to be solved: the parameter sheet when forward, the selection sheet when
/// adjoint. It is that sheet's front of the given count, and an empty part where the sheet is
/// shorter or the mode is `Auto`".
pub fn part<'a>(mode: u32, count: usize, parameter: &'a [f64], selection: &'a [f64]) -> &'a [f64] {
    let sheet = match mode {
        FORWARD => parameter,
        ADJOINT => selection,
        _ => &[],
    };
    sheet.get(..count).unwrap_or(&[])
}

/// The numbers that hold. The right side has none.
pub fn held(site: &Site, ask: &Ask) -> Held {
    let room = ask.rooms[0];
    match &ask.call {
        Call::OperandSelector { operand } => selector(site, *operand, &ask.rooms),
        Call::First { contraction } => site.held.and(first(site, contraction, room)),
        Call::RightSide { .. } => Held::default(),
        Call::Third { contraction, parameter, solved } => {
            site.held.and(third(site, contraction, parameter, solved, room))
        }
        Call::UnitScale { operand, parameter, base } => scale(*operand, *parameter, *base, room),
    }
}

/// The number that would do as well: where dim is open, so is whether a length is wrong.
pub fn also(site: &Site, ask: &Ask) -> Option<u8> {
    let sized = matches!(ask.call, Call::First { .. } | Call::Third { .. });
    (sized && site.shape.is_some() && !decided(site)).then_some(1)
}

fn selector(site: &Site, operand: u32, rooms: &[usize; SHEETS]) -> Held {
    let count = match served(operand) {
        Some(count) => count,
        None => return site.held.and(Held::of(4)),
    };
    let elements = site.count(count).unwrap_or(0);
    let needs = [1, elements, elements, elements];
    let short = rooms.iter().zip(needs).any(|(&room, need)| room < need);
    site.held.and(Held::when(7, short))
}

fn scale(operand: u32, parameter: u32, base: f64, room: usize) -> Held {
    let known = (operand as usize) < OPERANDS.len() && (parameter as usize) < PARAMETERS.len();
    let three = Held::when(3, !base_within(base));
    three.and(Held::when(4, !known)).and(Held::when(7, room < 1))
}

/// What the first and the third call test beside the network.
fn shared(site: &Site, contraction: &Contraction) -> Held {
    let selector = &contraction.selector;
    let entries: u64 = selector.counts.iter().map(|&count| u64::from(count)).sum();
    let (rows, weights) = (selector.rows.len(), selector.weights.len());
    let one = Held::when(1, rows != weights || entries != rows as u64);
    let mut values = selector.weights.iter().chain([&selector.sign]);
    let three = Held::when(3, values.any(|&x| !within(x, READING_LIMIT)));
    let four = Held::when(4, mode(contraction.mode).is_none());
    let end = site.shape.as_ref().map(|_| dim(site));
    let outside = |end: usize| selector.rows.iter().any(|&row| row as usize >= end);
    one.and(three).and(four).and(Held::when(5, end.map_or(false, outside)))
}

fn first(site: &Site, contraction: &Contraction, room: usize) -> Held {
    let held = shared(site, contraction);
    let dim = match decided_dim(site) {
        Some(dim) => dim,
        None => return held,
    };
    let forward = contraction.mode == FORWARD;
    let past = forward && product(dim, contraction.columns) > u128::from(u64::MAX);
    let adjoint = contraction.mode == ADJOINT;
    let short = adjoint && (room as u128) < product(dim, contraction.elements());
    held.and(Held::when(1, past)).and(Held::when(7, short))
}

fn third(
    site: &Site,
    contraction: &Contraction,
    parameter: &[f64],
    solved: &[f64],
    room: usize,
) -> Held {
    let words = product(contraction.elements(), contraction.columns);
    let broken = solved.iter().any(|&x| !within(x, SHEET_LIMIT));
    let held = shared(site, contraction).and(Held::when(3, broken));
    let held = held.and(Held::when(7, (room as u128) < words));
    let dim = match decided_dim(site) {
        Some(dim) => dim,
        None => return held,
    };
    let columns = product(dim, contraction.columns);
    let lengths = match contraction.mode {
        FORWARD => solved.len() as u128 == columns,
        ADJOINT => solved.len() as u128 == product(dim, contraction.elements()),
        _ => true,
    };
    let one = Held::when(1, (parameter.len() as u128) < columns || !lengths);
    let front = &parameter[..columns.min(parameter.len() as u128) as usize];
    held.and(one).and(Held::when(3, front.iter().any(|&x| !within(x, PARAMETER_LIMIT))))
}
