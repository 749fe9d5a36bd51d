//! Layouts, limits and numbers 1 to 3 of a network, read from the paper's tables.
//! What must be believed about refusals stands here; values come from the original Rust.

/// One of the seven counts at the head of the wiring, in its order.
#[derive(Clone, Copy, Debug, PartialEq, Eq)]
pub enum Count {
    Buses,
    Branches,
    Generators,
    References,
    Segments,
    Rows,
    Terms,
}

impl Count {
    pub const ALL: [Count; 7] = [
        Count::Buses,
        Count::Branches,
        Count::Generators,
        Count::References,
        Count::Segments,
        Count::Rows,
        Count::Terms,
    ];

    pub fn limit(self) -> usize {
        match self {
            Count::Buses => 256,
            Count::Branches => 512,
            Count::Generators => 256,
            Count::References => 16,
            Count::Segments => 1024,
            Count::Rows => 64,
            Count::Terms => 1024,
        }
    }

    pub fn name(self) -> &'static str {
        match self {
            Count::Buses => "buses n",
            Count::Branches => "branches m",
            Count::Generators => "generators k",
            Count::References => "references R",
            Count::Segments => "segments S",
            Count::Rows => "rows q",
            Count::Terms => "terms T",
        }
    }
}

/// Words before the first list of the wiring: seven counts, allow_shed, objective.
pub const HEAD: usize = 9;
pub const ALLOW_SHED: usize = 7;
pub const OBJECTIVE: usize = 8;

/// The lists of the wiring after its head, in order.
#[derive(Clone, Copy, Debug, PartialEq, Eq)]
pub enum Wire {
    BrFrom,
    BrTo,
    GenBus,
    Segments,
    References,
    GeneratorFlags,
    ThermalFlags,
    AngleFlags,
    RowMasks,
    FlowTerms,
    GenerationTerms,
}

pub const WIRES: usize = 11;

impl Wire {
    pub const ALL: [Wire; WIRES] = [
        Wire::BrFrom,
        Wire::BrTo,
        Wire::GenBus,
        Wire::Segments,
        Wire::References,
        Wire::GeneratorFlags,
        Wire::ThermalFlags,
        Wire::AngleFlags,
        Wire::RowMasks,
        Wire::FlowTerms,
        Wire::GenerationTerms,
    ];

    pub fn length(self) -> Count {
        match self {
            Wire::BrFrom | Wire::BrTo | Wire::ThermalFlags | Wire::AngleFlags => Count::Branches,
            Wire::GenBus | Wire::Segments | Wire::GeneratorFlags => Count::Generators,
            Wire::References => Count::References,
            Wire::RowMasks | Wire::FlowTerms | Wire::GenerationTerms => Count::Rows,
        }
    }

    pub fn name(self) -> &'static str {
        match self {
            Wire::BrFrom => "br_from",
            Wire::BrTo => "br_to",
            Wire::GenBus => "gen_bus",
            Wire::Segments => "segments per generator",
            Wire::References => "references",
            Wire::GeneratorFlags => "generator flags",
            Wire::ThermalFlags => "thermal flags",
            Wire::AngleFlags => "angle flags",
            Wire::RowMasks => "row masks",
            Wire::FlowTerms => "flow-term counts",
            Wire::GenerationTerms => "generation-term counts",
        }
    }
}

/// The lists of the readings, in order; the base is a list of one.
#[derive(Clone, Copy, Debug, PartialEq, Eq)]
pub enum Field {
    Base,
    B,
    Sw,
    Shift,
    FlowOffset,
    Fmax,
    Angmin,
    Angmax,
    Gmin,
    Gmax,
    Cq,
    Cl,
    Cc,
    CShed,
    Demand,
    ShuntConductance,
    HvdcInjection,
    Slopes,
    Intercepts,
    UpperMw,
    LowerMw,
}

pub const FIELDS: usize = 21;

impl Field {
    pub const ALL: [Field; FIELDS] = [
        Field::Base,
        Field::B,
        Field::Sw,
        Field::Shift,
        Field::FlowOffset,
        Field::Fmax,
        Field::Angmin,
        Field::Angmax,
        Field::Gmin,
        Field::Gmax,
        Field::Cq,
        Field::Cl,
        Field::Cc,
        Field::CShed,
        Field::Demand,
        Field::ShuntConductance,
        Field::HvdcInjection,
        Field::Slopes,
        Field::Intercepts,
        Field::UpperMw,
        Field::LowerMw,
    ];

    /// The count that is the list's length; none for the base.
    pub fn length(self) -> Option<Count> {
        match self {
            Field::Base => None,
            Field::B
            | Field::Sw
            | Field::Shift
            | Field::FlowOffset
            | Field::Fmax
            | Field::Angmin
            | Field::Angmax => Some(Count::Branches),
            Field::Gmin | Field::Gmax | Field::Cq | Field::Cl | Field::Cc => {
                Some(Count::Generators)
            }
            Field::CShed | Field::Demand | Field::ShuntConductance | Field::HvdcInjection => {
                Some(Count::Buses)
            }
            Field::Slopes | Field::Intercepts => Some(Count::Segments),
            Field::UpperMw | Field::LowerMw => Some(Count::Rows),
        }
    }

    pub fn name(self) -> &'static str {
        match self {
            Field::Base => "base_mva",
            Field::B => "b",
            Field::Sw => "sw",
            Field::Shift => "shift",
            Field::FlowOffset => "flow_offset",
            Field::Fmax => "fmax",
            Field::Angmin => "angmin",
            Field::Angmax => "angmax",
            Field::Gmin => "gmin",
            Field::Gmax => "gmax",
            Field::Cq => "cq",
            Field::Cl => "cl",
            Field::Cc => "cc",
            Field::CShed => "c_shed",
            Field::Demand => "demand",
            Field::ShuntConductance => "shunt_conductance",
            Field::HvdcInjection => "hvdc_injection",
            Field::Slopes => "slopes",
            Field::Intercepts => "intercepts",
            Field::UpperMw => "upper_mw",
            Field::LowerMw => "lower_mw",
        }
    }
}

/// The blocks of a solution sheet, in order; the objective is a block of one word.
#[derive(Clone, Copy, Debug, PartialEq, Eq)]
pub enum Block {
    Va,
    Pg,
    F,
    Psh,
    NuBal,
    LamUb,
    LamLb,
    RhoUb,
    RhoLb,
    MuUb,
    MuLb,
    GammaUb,
    GammaLb,
    Epigraphs,
    SegmentDuals,
    LinearDuals,
    LinearValues,
    Objective,
}

pub const BLOCKS: usize = 18;

impl Block {
    pub const ALL: [Block; BLOCKS] = [
        Block::Va,
        Block::Pg,
        Block::F,
        Block::Psh,
        Block::NuBal,
        Block::LamUb,
        Block::LamLb,
        Block::RhoUb,
        Block::RhoLb,
        Block::MuUb,
        Block::MuLb,
        Block::GammaUb,
        Block::GammaLb,
        Block::Epigraphs,
        Block::SegmentDuals,
        Block::LinearDuals,
        Block::LinearValues,
        Block::Objective,
    ];

    /// The count that is the block's length; none for epigraphs, one a piecewise
    /// generator, and for the objective.
    pub fn length(self) -> Option<Count> {
        match self {
            Block::Va | Block::Psh | Block::NuBal | Block::MuUb | Block::MuLb => Some(Count::Buses),
            Block::Pg | Block::RhoUb | Block::RhoLb => Some(Count::Generators),
            Block::F | Block::LamUb | Block::LamLb | Block::GammaUb | Block::GammaLb => {
                Some(Count::Branches)
            }
            Block::SegmentDuals => Some(Count::Segments),
            Block::LinearDuals | Block::LinearValues => Some(Count::Rows),
            Block::Epigraphs | Block::Objective => None,
        }
    }

    pub fn name(self) -> &'static str {
        match self {
            Block::Va => "va",
            Block::Pg => "pg",
            Block::F => "f",
            Block::Psh => "psh",
            Block::NuBal => "nu_bal",
            Block::LamUb => "lam_ub",
            Block::LamLb => "lam_lb",
            Block::RhoUb => "rho_ub",
            Block::RhoLb => "rho_lb",
            Block::MuUb => "mu_ub",
            Block::MuLb => "mu_lb",
            Block::GammaUb => "gamma_ub",
            Block::GammaLb => "gamma_lb",
            Block::Epigraphs => "epigraphs",
            Block::SegmentDuals => "segment duals",
            Block::LinearDuals => "linear duals",
            Block::LinearValues => "linear values",
            Block::Objective => "objective",
        }
    }
}

/// Where each block of a solution sheet begins, and where the sheet ends.
#[derive(Clone, Debug, Default)]
pub struct Blocks {
    starts: [usize; BLOCKS + 1],
}

impl Blocks {
    /// From the seven counts and the number of piecewise generators.
    pub fn new(counts: &[usize; 7], piecewise: usize) -> Blocks {
        let mut blocks = Blocks::default();
        let mut start = 0;
        for block in Block::ALL {
            blocks.starts[block as usize] = start;
            start += match block.length() {
                Some(count) => counts[count as usize],
                None if block == Block::Epigraphs => piecewise,
                None => 1,
            };
        }
        blocks.starts[BLOCKS] = start;
        blocks
    }

    pub fn range(&self, block: Block) -> std::ops::Range<usize> {
        self.starts[block as usize]..self.starts[block as usize + 1]
    }

    /// Words of the whole sheet.
    pub fn length(&self) -> usize {
        self.starts[BLOCKS]
    }

    /// Words before the last q + 1, which the matrix leaves alone.
    pub fn front(&self) -> usize {
        self.starts[Block::LinearValues as usize]
    }
}

/// Greatest magnitude of network readings, coefficients, selector weights and raw readings.
pub const READING_LIMIT: f64 = 1e12;
/// Greatest magnitude of sheet readings and solved columns.
pub const SHEET_LIMIT: f64 = 1e15;
/// Greatest magnitude in a parameter sheet that is handed in.
pub const PARAMETER_LIMIT: f64 = 1e60;
pub const BASE_LOW: f64 = 0.001;
pub const BASE_HIGH: f64 = 1_000_000.0;

/// The tolerance: 1 divided by 1,000,000, rounded once.
pub fn tolerance() -> f64 {
    1.0 / 1_000_000.0
}

pub fn within(x: f64, limit: f64) -> bool {
    x.is_finite() && x.abs() <= limit
}

pub fn base_within(x: f64) -> bool {
    (BASE_LOW..=BASE_HIGH).contains(&x)
}

/// The four lent slices of a network, as bytes.
#[derive(Clone, Debug, Default, PartialEq, Eq)]
pub struct Lent {
    pub wiring: Vec<u8>,
    pub readings: Vec<u8>,
    pub term_index: Vec<u8>,
    pub term_coefficient: Vec<u8>,
}

impl Lent {
    pub fn slices(&self) -> [&[u8]; 4] {
        [&self.wiring, &self.readings, &self.term_index, &self.term_coefficient]
    }

    pub fn total(&self) -> usize {
        self.slices().iter().map(|slice| slice.len()).sum()
    }
}

pub const SLICE_NAMES: [&str; 4] = ["wiring", "readings", "term_index", "term_coefficient"];

pub fn word(bytes: &[u8], place: usize) -> u32 {
    let mut four = [0; 4];
    four.copy_from_slice(&bytes[4 * place..4 * place + 4]);
    u32::from_le_bytes(four)
}

pub fn set_word(bytes: &mut [u8], place: usize, value: u32) {
    bytes[4 * place..4 * place + 4].copy_from_slice(&value.to_le_bytes());
}

pub fn double(bytes: &[u8], place: usize) -> f64 {
    let mut eight = [0; 8];
    eight.copy_from_slice(&bytes[8 * place..8 * place + 8]);
    f64::from_bits(u64::from_le_bytes(eight))
}

pub fn set_bits(bytes: &mut [u8], place: usize, bits: u64) {
    bytes[8 * place..8 * place + 8].copy_from_slice(&bits.to_le_bytes());
}

pub fn words(bytes: &[u8]) -> Vec<u32> {
    (0..bytes.len() / 4).map(|place| word(bytes, place)).collect()
}

pub fn doubles(bytes: &[u8]) -> Vec<f64> {
    (0..bytes.len() / 8).map(|place| double(bytes, place)).collect()
}

/// The terms as records of twelve bytes, index and coefficient. Where the two slices have not as many whole
/// words there are some bytes more, which make no record: number 1 holds of both forms.
pub fn records(lent: &Lent) -> Vec<u8> {
    let (index, coefficient) = (lent.term_index.chunks_exact(4), lent.term_coefficient.chunks_exact(8));
    let ragged = index.len() != coefficient.len()
        || !index.remainder().is_empty()
        || !coefficient.remainder().is_empty();
    let more = if ragged { 1 + lent.total() % 11 } else { 0 };
    let pairs = index.zip(coefficient);
    pairs.flat_map(|(index, coefficient)| [index, coefficient].concat()).chain(vec![0; more]).collect()
}

pub fn bytes_of_words(words: &[u32]) -> Vec<u8> {
    words.iter().flat_map(|word| word.to_le_bytes()).collect()
}

pub fn bytes_of_doubles(doubles: &[f64]) -> Vec<u8> {
    doubles.iter().flat_map(|x| x.to_bits().to_le_bytes()).collect()
}

/// Which numbers of the table hold; the answer is the lowest.
#[derive(Clone, Copy, Debug, Default, PartialEq, Eq)]
pub struct Held(u16);

impl Held {
    pub fn of(number: u8) -> Held {
        Held(1 << number)
    }

    pub fn when(number: u8, holds: bool) -> Held {
        if holds {
            Held::of(number)
        } else {
            Held(0)
        }
    }

    pub fn and(self, other: Held) -> Held {
        Held(self.0 | other.0)
    }

    pub fn has(self, number: u8) -> bool {
        self.0 & (1 << number) != 0
    }

    /// 0 if none holds.
    pub fn lowest(self) -> u8 {
        if self.0 == 0 {
            0
        } else {
            self.0.trailing_zeros() as u8
        }
    }
}

/// Counts and starts of a network for which number 1 does not hold.
#[derive(Clone, Debug)]
pub struct Shape {
    counts: [usize; 7],
    wire_starts: [usize; WIRES],
    field_starts: [usize; FIELDS],
    /// The solution sheet's.
    pub blocks: Blocks,
}

impl Shape {
    pub fn count(&self, count: Count) -> usize {
        self.counts[count as usize]
    }

    pub fn wire_range(&self, wire: Wire) -> std::ops::Range<usize> {
        let start = self.wire_starts[wire as usize];
        start..start + self.count(wire.length())
    }

    pub fn field_range(&self, field: Field) -> std::ops::Range<usize> {
        let start = self.field_starts[field as usize];
        start..start + field.length().map_or(1, |count| self.count(count))
    }

    /// "The list has at most 26m + 10n + 9k + 5S + 2R + 4T + 2q triplets".
    pub fn matrix_most(&self) -> usize {
        let [n, m, k, r, s, q, t] = self.counts;
        26 * m + 10 * n + 9 * k + 5 * s + 2 * r + 4 * t + 2 * q
    }

    /// A bus has four triplets whatever its readings: in its psh row and column.
    pub fn matrix_least(&self) -> usize {
        4 * self.counts[Count::Buses as usize]
    }

    /// The least and the most words of each output of assembly, in their order: P's and A's
    /// rows, columns and values, q, b, cone sizes. A zero is dropped, so that only the entries
    /// 1 and -1 of A are sure, and of them those that no flag decides.
    pub fn program_bounds(&self) -> [(usize, usize); 9] {
        let [n, m, k, r, s, q, t] = self.counts;
        let p = (0, k);
        let a = (m + k + r + s, 13 * m + 3 * k + 3 * n + r + 2 * s + 2 * t);
        let columns = n + k + m + self.blocks.range(Block::Epigraphs).len();
        let rows = n + m + r + s;
        let (costs, sides) = ((columns, columns + n), (rows, rows + 4 * m + 2 * (k + n + q)));
        [p, p, p, a, a, a, costs, sides, (2, 4)]
    }

    fn new(counts: [usize; 7]) -> Shape {
        let mut shape = Shape {
            counts,
            wire_starts: [0; WIRES],
            field_starts: [0; FIELDS],
            blocks: Blocks::default(),
        };
        let mut start = HEAD;
        for wire in Wire::ALL {
            shape.wire_starts[wire as usize] = start;
            start += shape.count(wire.length());
        }
        let mut start = 0;
        for field in Field::ALL {
            shape.field_starts[field as usize] = start;
            start += field.length().map_or(1, |count| shape.count(count));
        }
        shape
    }
}

/// Length that the counts give the wiring; any 32-bit counts, so in 64 bits.
pub fn wiring_length(counts: &[u64; 7]) -> u64 {
    let lists: u64 = Wire::ALL.iter().map(|wire| counts[wire.length() as usize]).sum();
    HEAD as u64 + lists
}

/// Length that the counts give the readings.
pub fn readings_length(counts: &[u64; 7]) -> u64 {
    Field::ALL.iter().map(|field| field.length().map_or(1, |count| counts[count as usize])).sum()
}

/// The seven counts as written, if the wiring has whole words and a whole head.
pub fn written_counts(lent: &Lent) -> Option<[u64; 7]> {
    if lent.wiring.len() % 4 != 0 || lent.wiring.len() / 4 < HEAD {
        return None;
    }
    let mut counts = [0; 7];
    for count in Count::ALL {
        counts[count as usize] = u64::from(word(&lent.wiring, count as usize));
    }
    Some(counts)
}

/// Whether every slice has whole words and the length that the counts give it.
pub fn lengths_agree(lent: &Lent, counts: &[u64; 7]) -> bool {
    let terms = counts[Count::Terms as usize];
    let holds = |bytes: &[u8], size: usize, length: u64| {
        bytes.len() % size == 0 && (bytes.len() / size) as u64 == length
    };
    holds(&lent.wiring, 4, wiring_length(counts))
        && holds(&lent.readings, 8, readings_length(counts))
        && holds(&lent.term_index, 4, terms)
        && holds(&lent.term_coefficient, 8, terms)
}

/// The shape, unless number 1 holds: "count above its limit; segments or term counts not
/// summing to S or T; an input slice of wrong length".
pub fn shape(lent: &Lent) -> Option<Shape> {
    let written = written_counts(lent)?;
    let above = Count::ALL.iter().any(|&count| written[count as usize] > count.limit() as u64);
    if above || !lengths_agree(lent, &written) {
        return None;
    }
    let mut counts = [0; 7];
    for count in Count::ALL {
        counts[count as usize] = written[count as usize] as usize;
    }
    let mut shape = Shape::new(counts);
    let total = |wire: Wire| -> u64 {
        shape.wire_range(wire).map(|place| u64::from(word(&lent.wiring, place))).sum()
    };
    let segments = total(Wire::Segments);
    let terms = total(Wire::FlowTerms) + total(Wire::GenerationTerms);
    if segments != written[Count::Segments as usize] || terms != written[Count::Terms as usize] {
        return None;
    }
    let own = shape.wire_range(Wire::Segments).map(|place| word(&lent.wiring, place));
    let piecewise = own.filter(|&segments| segments > 0).count();
    shape.blocks = Blocks::new(&counts, piecewise);
    Some(shape)
}

/// Numbers 1 and 3 of a solution sheet: "an input slice of wrong length", "a reading .. not
/// finite or outside its limits". Only the words before `looked_at` are looked at.
pub fn solution_held(sheet: &[u8], shape: &Shape, looked_at: usize) -> Held {
    let words = (sheet.len() / 8).min(looked_at);
    let broken = |place| !within(double(sheet, place), SHEET_LIMIT);
    let one = Held::when(1, sheet.len() != 8 * shape.blocks.length());
    one.and(Held::when(3, (0..words).any(broken)))
}

/// The size of a network's program.
#[derive(Clone, Copy, Debug, PartialEq, Eq)]
pub struct Program {
    pub columns: usize,
    pub rows: usize,
    /// Whether the paper decides it: where a flag, a mask or allow_shed is outside its values,
    /// it leaves open what has a row. Here, then, flags other than 0 and none of the rest.
    pub decided: bool,
}

/// "Columns va, pg, f, shed, cost. Rows: balance n, flow m, reference R, then .. thermal,
/// generator, shed, angle; segments; linear equalities; linear inequalities", where "a shed
/// column exists if cap > 0".
pub fn program(lent: &Lent, shape: &Shape) -> Program {
    let [n, m, k, r, s, _, _] = shape.counts;
    let wires = |wire: Wire| shape.wire_range(wire).map(|place| word(&lent.wiring, place));
    let readings = |field: Field| shape.field_range(field).map(|at| double(&lent.readings, at));
    let flags = || {
        let both = wires(Wire::ThermalFlags).chain(wires(Wire::GeneratorFlags));
        both.chain(wires(Wire::AngleFlags))
    };
    let allow_shed = word(&lent.wiring, ALLOW_SHED);
    let sheds = readings(Field::Demand).filter(|&demand| allow_shed == 1 && demand > 0.0).count();
    let limits = readings(Field::UpperMw).zip(readings(Field::LowerMw));
    let linear = wires(Wire::RowMasks).zip(limits).map(|(mask, (upper, lower))| match mask {
        1 | 2 => 1,
        3 if upper == lower => 1,
        3 => 2,
        _ => 0,
    });
    let limited = flags().filter(|&flag| flag != 0).count() + sheds;
    let masks_decided = wires(Wire::RowMasks).all(|mask| mask <= 3);
    Program {
        columns: n + k + m + sheds + shape.blocks.range(Block::Epigraphs).len(),
        rows: n + m + r + 2 * limited + s + linear.sum::<usize>(),
        decided: allow_shed <= 1 && flags().all(|flag| flag <= 1) && masks_decided,
    }
}

/// Numbers 1 and 3 of a raw vector, of this length if it is known: "an input slice of wrong
/// length", "a reading .. not finite or outside its limits".
pub fn raw_held(list: &[u8], length: Option<usize>) -> Held {
    let broken = |place| !within(double(list, place), READING_LIMIT);
    let wrong = list.len() % 8 != 0 || length.map_or(false, |length| list.len() / 8 != length);
    Held::when(1, wrong).and(Held::when(3, (0..list.len() / 8).any(broken)))
}

/// Number 2: "index not below its count; flag, mask or objective outside its values".
fn wiring_breaks(lent: &Lent, shape: &Shape) -> bool {
    let above = |wire: Wire, end: usize| {
        shape.wire_range(wire).any(|place| word(&lent.wiring, place) as usize >= end)
    };
    let buses = shape.count(Count::Buses);
    word(&lent.wiring, ALLOW_SHED) > 1
        || word(&lent.wiring, OBJECTIVE) > 2
        || above(Wire::BrFrom, buses)
        || above(Wire::BrTo, buses)
        || above(Wire::GenBus, buses)
        || above(Wire::References, buses)
        || above(Wire::GeneratorFlags, 2)
        || above(Wire::ThermalFlags, 2)
        || above(Wire::AngleFlags, 2)
        || above(Wire::RowMasks, 4)
        || terms_break(lent, shape)
}

/// The terms that a place of the term slices belongs to, row by row, flow terms first.
pub fn term_kinds(lent: &Lent, shape: &Shape) -> Vec<Count> {
    let mut kinds = Vec::with_capacity(shape.count(Count::Terms));
    let generation_start = shape.wire_range(Wire::GenerationTerms).start;
    for (row, place) in shape.wire_range(Wire::FlowTerms).enumerate() {
        let flow = word(&lent.wiring, place) as usize;
        let generation = word(&lent.wiring, generation_start + row) as usize;
        kinds.resize(kinds.len() + flow, Count::Branches);
        kinds.resize(kinds.len() + generation, Count::Generators);
    }
    kinds
}

fn terms_break(lent: &Lent, shape: &Shape) -> bool {
    term_kinds(lent, shape)
        .iter()
        .enumerate()
        .any(|(place, &kind)| word(&lent.term_index, place) as usize >= shape.count(kind))
}

/// Number 3: "a reading, coefficient .. not finite or outside its limits".
fn reading_breaks(lent: &Lent) -> bool {
    !base_within(double(&lent.readings, 0))
        || (1..lent.readings.len() / 8)
            .any(|place| !within(double(&lent.readings, place), READING_LIMIT))
        || (0..lent.term_coefficient.len() / 8)
            .any(|place| !within(double(&lent.term_coefficient, place), READING_LIMIT))
}

/// Numbers 1 to 3 of a network. 2 and 3 are read only where 1 does not hold.
pub fn held(lent: &Lent) -> (Held, Option<Shape>) {
    match shape(lent) {
        None => (Held::of(1), None),
        Some(shape) => {
            let two = Held::when(2, wiring_breaks(lent, &shape));
            let three = Held::when(3, reading_breaks(lent));
            (two.and(three), Some(shape))
        }
    }
}

/// A network taken apart into its lists; `encode` lays them out in the paper's order.
#[derive(Clone, Debug)]
pub struct Parts {
    pub head: [u32; HEAD],
    pub wires: [Vec<u32>; WIRES],
    pub fields: [Vec<f64>; FIELDS],
    pub term_index: Vec<u32>,
    pub term_coefficient: Vec<f64>,
}

impl Parts {
    pub fn wire(&self, wire: Wire) -> &Vec<u32> {
        &self.wires[wire as usize]
    }

    pub fn wire_mut(&mut self, wire: Wire) -> &mut Vec<u32> {
        &mut self.wires[wire as usize]
    }

    pub fn field_mut(&mut self, field: Field) -> &mut Vec<f64> {
        &mut self.fields[field as usize]
    }

    pub fn count(&self, count: Count) -> usize {
        self.head[count as usize] as usize
    }

    pub fn encode(&self) -> Lent {
        let mut wiring = bytes_of_words(&self.head);
        for list in &self.wires {
            wiring.extend(bytes_of_words(list));
        }
        let readings = self.fields.iter().flat_map(|list| bytes_of_doubles(list)).collect();
        Lent {
            wiring,
            readings,
            term_index: bytes_of_words(&self.term_index),
            term_coefficient: bytes_of_doubles(&self.term_coefficient),
        }
    }

    /// The lists of any slices whose lengths agree with their counts, limits set aside.
    pub fn decode(lent: &Lent) -> Option<Parts> {
        let counts = written_counts(lent)?;
        if !lengths_agree(lent, &counts) {
            return None;
        }
        let wiring = words(&lent.wiring);
        let readings = doubles(&lent.readings);
        let mut head = [0; HEAD];
        head.copy_from_slice(&wiring[..HEAD]);
        let mut start = HEAD;
        let wires = Wire::ALL.map(|wire| {
            let end = start + counts[wire.length() as usize] as usize;
            let list = wiring[start..end].to_vec();
            start = end;
            list
        });
        let mut start = 0;
        let fields = Field::ALL.map(|field| {
            let end = start + field.length().map_or(1, |count| counts[count as usize] as usize);
            let list = readings[start..end].to_vec();
            start = end;
            list
        });
        Some(Parts {
            head,
            wires,
            fields,
            term_index: words(&lent.term_index),
            term_coefficient: doubles(&lent.term_coefficient),
        })
    }
}
