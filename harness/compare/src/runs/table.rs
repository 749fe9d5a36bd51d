//! The paper's table of site changes: the reading that each kind sets, the cells that it
//! names, and numbers 3 to 5 of a change.

use oracle::BlockStarts;

use crate::calls::Site;
use crate::paper::{within, Field, Held, Shape, Wire, READING_LIMIT};

/// "A change is three little-endian 32-bit words: the first has the kind in its top four bits
/// and the index in the low 28; then the low and high halves of the new double."
#[derive(Clone, Copy, Debug, PartialEq, Eq)]
pub struct Change {
    pub head: u32,
    pub low: u32,
    pub high: u32,
}

/// The reading of kinds 1 to 9.
pub const KINDS: [Field; 9] = [
    Field::Demand,
    Field::Fmax,
    Field::Sw,
    Field::B,
    Field::Angmin,
    Field::Angmax,
    Field::Cq,
    Field::Gmin,
    Field::Gmax,
];

impl Change {
    pub fn new(kind: u32, index: u32, value: f64) -> Change {
        let bits = value.to_bits();
        let head = kind << 28 | index & 0x0FFF_FFFF;
        Change { head, low: bits as u32, high: (bits >> 32) as u32 }
    }

    /// The same value for another change's reading.
    pub fn aimed_at(self, other: Change) -> Change {
        Change { head: other.head, ..self }
    }

    pub fn words(self) -> [u32; 3] {
        [self.head, self.low, self.high]
    }

    pub fn kind(self) -> u32 {
        self.head >> 28
    }

    pub fn index(self) -> usize {
        (self.head & 0x0FFF_FFFF) as usize
    }

    pub fn bits(self) -> u64 {
        u64::from(self.high) << 32 | u64::from(self.low)
    }

    pub fn value(self) -> f64 {
        f64::from_bits(self.bits())
    }

    /// The reading that the change sets; none for "change kind 0 or 10 to 15".
    pub fn field(self) -> Option<Field> {
        KINDS.get((self.kind() as usize).wrapping_sub(1)).copied()
    }

    /// "3: .. change value not finite or outside its limits", "4: .. change kind 0 or 10 to
    /// 15", "5: .. change index .. not below its length".
    pub fn held(self, shape: &Shape) -> Held {
        let three = Held::when(3, !within(self.value(), READING_LIMIT));
        let own = match self.field() {
            None => Held::of(4),
            Some(field) => Held::when(5, self.index() >= shape.field_range(field).len()),
        };
        three.and(own)
    }

    /// The word of the readings that the change sets, if neither 4 nor 5 holds.
    pub fn place(self, shape: &Shape) -> Option<usize> {
        let range = shape.field_range(self.field()?);
        Some(range.start + self.index()).filter(|&place| place < range.end)
    }
}

/// A row or column of the matrix: a block at the change's own index, or a bus's block at the
/// first or second end of its branch.
#[derive(Clone, Copy, Debug, PartialEq, Eq)]
pub enum Line {
    Pg,
    Psh,
    LamLb,
    LamUb,
    GammaLb,
    GammaUb,
    RhoLb,
    RhoUb,
    MuLb,
    MuUb,
    NuFlow,
    VaFrom,
    VaTo,
    NuBalFrom,
    NuBalTo,
}

impl Line {
    pub fn name(self) -> &'static str {
        match self {
            Line::Pg => "pg+j",
            Line::Psh => "psh+i",
            Line::LamLb => "lam_lb+e",
            Line::LamUb => "lam_ub+e",
            Line::GammaLb => "gamma_lb+e",
            Line::GammaUb => "gamma_ub+e",
            Line::RhoLb => "rho_lb+j",
            Line::RhoUb => "rho_ub+j",
            Line::MuLb => "mu_lb+i",
            Line::MuUb => "mu_ub+i",
            Line::NuFlow => "nu_flow+e",
            Line::VaFrom => "va+from",
            Line::VaTo => "va+to",
            Line::NuBalFrom => "nu_bal+from",
            Line::NuBalTo => "nu_bal+to",
        }
    }

    fn at(self, starts: &BlockStarts, index: usize, ends: (usize, usize)) -> usize {
        match self {
            Line::Pg => starts.pg + index,
            Line::Psh => starts.psh + index,
            Line::LamLb => starts.lam_lb + index,
            Line::LamUb => starts.lam_ub + index,
            Line::GammaLb => starts.gamma_lb + index,
            Line::GammaUb => starts.gamma_ub + index,
            Line::RhoLb => starts.rho_lb + index,
            Line::RhoUb => starts.rho_ub + index,
            Line::MuLb => starts.mu_lb + index,
            Line::MuUb => starts.mu_ub + index,
            Line::NuFlow => starts.nu_flow + index,
            Line::VaFrom => starts.va + ends.0,
            Line::VaTo => starts.va + ends.1,
            Line::NuBalFrom => starts.nu_bal + ends.0,
            Line::NuBalTo => starts.nu_bal + ends.1,
        }
    }
}

const DEMAND: &[(Line, Line)] = &[
    (Line::MuLb, Line::Psh),
    (Line::MuUb, Line::Psh),
    (Line::MuLb, Line::MuLb),
    (Line::MuUb, Line::MuUb),
];
const FMAX: &[(Line, Line)] = &[(Line::LamLb, Line::LamLb), (Line::LamUb, Line::LamUb)];
const SW: &[(Line, Line)] = &[
    (Line::GammaLb, Line::VaFrom),
    (Line::GammaLb, Line::VaTo),
    (Line::VaFrom, Line::GammaLb),
    (Line::VaTo, Line::GammaLb),
    (Line::GammaUb, Line::VaFrom),
    (Line::GammaUb, Line::VaTo),
    (Line::VaFrom, Line::GammaUb),
    (Line::VaTo, Line::GammaUb),
    (Line::NuFlow, Line::VaFrom),
    (Line::NuFlow, Line::VaTo),
    (Line::VaFrom, Line::NuFlow),
    (Line::VaTo, Line::NuFlow),
    (Line::GammaLb, Line::GammaLb),
    (Line::GammaUb, Line::GammaUb),
    (Line::NuBalFrom, Line::VaFrom),
    (Line::NuBalFrom, Line::VaTo),
    (Line::NuBalTo, Line::VaFrom),
    (Line::NuBalTo, Line::VaTo),
    (Line::VaFrom, Line::NuBalFrom),
    (Line::VaFrom, Line::NuBalTo),
    (Line::VaTo, Line::NuBalFrom),
    (Line::VaTo, Line::NuBalTo),
];
const B: &[(Line, Line)] = &[
    (Line::NuFlow, Line::VaFrom),
    (Line::NuFlow, Line::VaTo),
    (Line::VaFrom, Line::NuFlow),
    (Line::VaTo, Line::NuFlow),
    (Line::NuBalFrom, Line::VaFrom),
    (Line::NuBalFrom, Line::VaTo),
    (Line::NuBalTo, Line::VaFrom),
    (Line::NuBalTo, Line::VaTo),
    (Line::VaFrom, Line::NuBalFrom),
    (Line::VaFrom, Line::NuBalTo),
    (Line::VaTo, Line::NuBalFrom),
    (Line::VaTo, Line::NuBalTo),
];
const ANGMIN: &[(Line, Line)] =
    &[(Line::GammaLb, Line::VaFrom), (Line::GammaLb, Line::VaTo), (Line::GammaLb, Line::GammaLb)];
const ANGMAX: &[(Line, Line)] =
    &[(Line::GammaUb, Line::VaFrom), (Line::GammaUb, Line::VaTo), (Line::GammaUb, Line::GammaUb)];

/// The cells of each kind, in the order of `KINDS`.
pub const CELLS: [&[(Line, Line)]; 9] = [
    DEMAND,
    FMAX,
    SW,
    B,
    ANGMIN,
    ANGMAX,
    &[(Line::Pg, Line::Pg)],
    &[(Line::RhoLb, Line::RhoLb)],
    &[(Line::RhoUb, Line::RhoUb)],
];

/// "A cell is (row, column)".
pub type Cell = (u32, u32);

/// Both ends of the branch that a change is about; none if it is about a bus or generator.
pub fn ends(site: &Site, change: Change) -> Option<(usize, usize)> {
    let on_branch = matches!(change.kind(), 2..=6);
    let end = |wire: Wire| site.wire(wire, change.index()) as usize;
    on_branch.then(|| (end(Wire::BrFrom), end(Wire::BrTo)))
}

/// The cells that a change names where numbers 4 and 5 don't hold, in the order of `CELLS`.
pub fn named(site: &Site, starts: &BlockStarts, change: Change) -> Vec<Cell> {
    let ends = ends(site, change).unwrap_or((0, 0));
    let line = |line: Line| line.at(starts, change.index(), ends) as u32;
    let cells = CELLS[change.kind() as usize - 1];
    cells.iter().map(|&(row, column)| (line(row), line(column))).collect()
}
