//! The numbers of a call for parameter columns, from the paper's order; values come from the
//! original Rust.

use oracle::{Bound, CostTerm, Parameter, Power, TapKind, GB};

use crate::calls::Site;
use crate::paper::{self, Block, Count, Field, Held, Wire};
use crate::parameters::Ask;

/// Parameters by their number: in the order of declaration, the last named turning first.
pub const PARAMETERS: [Parameter; 19] = [
    Parameter::Demand(Power::Active),
    Parameter::Demand(Power::Reactive),
    Parameter::Cost(CostTerm::Quadratic),
    Parameter::Cost(CostTerm::Linear),
    Parameter::LineLimit,
    Parameter::SeriesAdmittance(GB::Conductance),
    Parameter::SeriesAdmittance(GB::Susceptance),
    Parameter::ShuntAdmittance(GB::Conductance),
    Parameter::ShuntAdmittance(GB::Susceptance),
    Parameter::VoltageBound(Bound::Min),
    Parameter::VoltageBound(Bound::Max),
    Parameter::GenBound { power: Power::Active, bound: Bound::Min },
    Parameter::GenBound { power: Power::Active, bound: Bound::Max },
    Parameter::GenBound { power: Power::Reactive, bound: Bound::Min },
    Parameter::GenBound { power: Power::Reactive, bound: Bound::Max },
    Parameter::Transformer(TapKind::Ratio),
    Parameter::Transformer(TapKind::PhaseShift),
    Parameter::Switching,
    Parameter::ConstraintLimit,
];

pub const DEMAND: u32 = 0;
pub const QUADRATIC: u32 = 2;
pub const LINEAR: u32 = 3;
pub const LINE_LIMIT: u32 = 4;
pub const SUSCEPTANCE: u32 = 6;
pub const SWITCHING: u32 = 17;
pub const CONSTRAINT_LIMIT: u32 = 18;

/// The parameters that are served, and what each is a list of.
pub const SERVED: [(u32, Count, &str); 7] = [
    (DEMAND, Count::Buses, "0 active demand"),
    (QUADRATIC, Count::Generators, "2 quadratic cost"),
    (LINEAR, Count::Generators, "3 linear cost"),
    (LINE_LIMIT, Count::Branches, "4 line limit"),
    (SUSCEPTANCE, Count::Branches, "6 series susceptance"),
    (SWITCHING, Count::Branches, "17 switching"),
    (CONSTRAINT_LIMIT, Count::Rows, "18 constraint limit"),
];

/// The count that is the parameter's length, if it is served.
pub fn served(parameter: u32) -> Option<Count> {
    SERVED.iter().find(|served| served.0 == parameter).map(|served| served.1)
}

pub fn is_cost(parameter: u32) -> bool {
    parameter == QUADRATIC || parameter == LINEAR
}

pub fn piecewise(site: &Site, generator: usize) -> bool {
    site.wire(Wire::Segments, generator) > 0
}

/// The words of a column: the rows of the matrix. A row without a readable mask counts none.
pub fn dim(site: &Site) -> usize {
    let shape = site.shape();
    let count = |count: Count| shape.count(count);
    let (n, m, k) = (count(Count::Buses), count(Count::Branches), count(Count::Generators));
    let limits = |row: usize| match site.wire(Wire::RowMasks, row) {
        1 | 2 => 1,
        3 if site.reading(Field::UpperMw, row) == site.reading(Field::LowerMw, row) => 1,
        3 => 2,
        _ => 0,
    };
    let linear: usize = (0..count(Count::Rows)).map(limits).sum();
    let epigraphs = shape.blocks.range(Block::Epigraphs).len();
    let others = epigraphs + count(Count::Segments) + linear + count(Count::References);
    5 * n + 6 * m + 3 * k + others
}

/// The numbers that hold. Nothing more can be read where number 1 holds of the network itself.
pub fn held(site: &Site, ask: &Ask) -> Held {
    let shape = match &site.shape {
        Some(shape) => shape,
        None => return site.held,
    };
    let front = shape.blocks.front();
    let mut held = site.held.and(paper::solution_held(&ask.solution, shape, front));
    match served(ask.parameter) {
        None => held = held.and(Held::when(4, !ask.columns.is_empty())),
        Some(count) => {
            let length = shape.count(count);
            let own = || ask.columns.iter().map(|&column| column as usize);
            held = held.and(Held::when(5, own().any(|column| column >= length)));
            let mut within = own().filter(|&column| column < length);
            let broken = is_cost(ask.parameter) && within.any(|column| piecewise(site, column));
            held = held.and(Held::when(6, broken));
        }
    }
    held.and(Held::when(7, ask.sheet < ask.columns.len() * dim(site)))
}
