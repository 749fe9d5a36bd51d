//! Each call: its arguments, what it must answer, and the check of every lent byte.
//! A further call is one more entry of `OPS`.

use oracle::Oracle;

use crate::abi::{self, program, Memory};
use crate::damage::{broken_double, Fault};
use crate::generate::{sheet_value, value};
use crate::marks::mark_call;
use crate::paper::{
    self, bytes_of_doubles, bytes_of_words, double, within, word, Blocks, Count, Field, Held, Lent,
    Program, Shape, Wire, READING_LIMIT, SHEET_LIMIT, SLICE_NAMES,
};
use crate::programs;
use crate::random::Rng;
use crate::report::{Coverage, Mismatch};
use crate::solutions;
use crate::table::EXPORTS;

/// A network as lent, with the paper's reading of it; the original Rust answers for it
/// where it is accepted.
pub struct Site {
    pub lent: Lent,
    pub held: Held,
    pub shape: Option<Shape>,
    pub program: Option<Program>,
    oracle: Option<Oracle>,
}

impl Site {
    pub fn new(lent: Lent) -> Site {
        let (held, shape) = paper::held(&lent);
        let program = shape.as_ref().map(|shape| paper::program(&lent, shape));
        let oracle = if held.lowest() == 0 {
            Some(Oracle::new(&oracle::Network {
                wiring: paper::words(&lent.wiring),
                readings: paper::doubles(&lent.readings),
                term_index: paper::words(&lent.term_index),
                term_coefficient: paper::doubles(&lent.term_coefficient),
            }))
        } else {
            None
        };
        Site { lent, held, shape, program, oracle }
    }

    pub fn oracle(&self) -> &Oracle {
        self.oracle.as_ref().expect("asked of accepted networks only")
    }

    pub fn shape(&self) -> &Shape {
        self.shape.as_ref().expect("asked only where number 1 does not hold")
    }

    /// A count, if number 1 does not hold.
    pub fn count(&self, count: Count) -> Option<usize> {
        self.shape.as_ref().map(|shape| shape.count(count))
    }

    /// Whether every slice has whole words.
    pub fn whole(&self) -> bool {
        let sizes = [4, 8, 4, 8];
        self.lent.slices().iter().zip(sizes).all(|(slice, size)| slice.len() % size == 0)
    }

    pub fn wire(&self, wire: Wire, place: usize) -> u32 {
        word(&self.lent.wiring, self.shape().wire_range(wire).start + place)
    }

    pub fn reading(&self, field: Field, place: usize) -> f64 {
        double(&self.lent.readings, self.shape().field_range(field).start + place)
    }
}

/// The paper's bench network as lent, and its solution sheet.
pub fn bench() -> (Lent, Vec<f64>) {
    let (net, solution) = oracle::bench_network();
    let lent = Lent {
        wiring: bytes_of_words(&net.wiring),
        readings: bytes_of_doubles(&net.readings),
        term_index: bytes_of_words(&net.term_index),
        term_coefficient: bytes_of_doubles(&net.term_coefficient),
    };
    (lent, solution)
}

/// What a lent output holds.
#[derive(Clone, Copy, PartialEq, Eq)]
pub enum Word {
    U32,
    F64,
}

impl Word {
    fn size(self) -> usize {
        match self {
            Word::U32 => 4,
            Word::F64 => 8,
        }
    }
}

/// The words that a call puts at the front of one output.
pub enum Front {
    U32(Vec<u32>),
    F64(Vec<f64>),
}

impl Front {
    pub fn len(&self) -> usize {
        match self {
            Front::U32(words) => words.len(),
            Front::F64(words) => words.len(),
        }
    }
}

/// An accepted call's count and outputs.
pub struct Answer {
    count: u64,
    fronts: Vec<Front>,
}

fn one(x: f64) -> Answer {
    Answer { count: 1, fronts: vec![Front::F64(vec![x])] }
}

fn all(words: Vec<f64>) -> Answer {
    Answer { count: words.len() as u64, fronts: vec![Front::F64(words)] }
}

/// How much of an output is lent, measured from its result: words more or less, and bytes
/// that make no whole word.
#[derive(Clone, Copy, Debug, Default)]
pub struct Lend {
    pub words: i32,
    pub leftover: u8,
}

impl Lend {
    const NOTHING: i32 = -1_000_000;

    fn bytes(self, need: usize, word: Word) -> usize {
        let words = (need as i64 + i64::from(self.words)).max(0) as usize;
        words * word.size() + usize::from(self.leftover) % word.size()
    }
}

/// The length of a lent list of readings, of a sheet or raw.
#[derive(Clone, Copy, Debug, PartialEq, Eq)]
pub enum Length {
    Of(Count),
    /// A whole solution sheet, each word of which is looked at.
    Solution,
    /// A whole solution sheet whose last q + 1 words may hold anything.
    SolutionFront,
    /// A raw reading for each column of the program.
    Columns,
    /// A raw reading for each of its rows.
    Rows,
}

impl Length {
    pub fn is_solution(self) -> bool {
        matches!(self, Length::Solution | Length::SolutionFront)
    }

    pub fn is_raw(self) -> bool {
        matches!(self, Length::Columns | Length::Rows)
    }

    /// The words of a raw vector for this program.
    pub fn of_program(self, program: &Program) -> usize {
        if self == Length::Columns {
            program.columns
        } else {
            program.rows
        }
    }

    /// The words that are looked at, given the sheet's layout.
    pub fn looked_at(self, blocks: &Blocks) -> usize {
        match self {
            Length::SolutionFront => blocks.front(),
            _ => blocks.length(),
        }
    }
}

/// Everything a call is given beside the network.
#[derive(Clone, Debug, Default)]
pub struct Args {
    pub index: usize,
    pub bits: u64,
    pub lists: Vec<Vec<u8>>,
    pub lends: Vec<Lend>,
    /// Whether a refused call whose result's length is open is lent room for any result.
    pub roomy: bool,
}

/// What is known of the outputs where a call is refused.
pub enum Room {
    /// Nothing.
    Open,
    /// The counts decide the words of the only output.
    Counts(fn(&Site) -> Option<usize>),
    /// The least and the most words of each output.
    Between(fn(&Shape) -> Vec<(usize, usize)>),
}

impl Room {
    fn bounds(&self, site: &Site) -> Option<Vec<(usize, usize)>> {
        match self {
            Room::Open => None,
            Room::Counts(words) => words(site).map(|words| vec![(words, words)]),
            Room::Between(bounds) => site.shape.as_ref().map(bounds),
        }
    }
}

/// A call and how it is checked.
pub struct Op {
    pub name: &'static str,
    /// What the index argument counts.
    pub index: Option<Count>,
    /// Lent readings: each list's name and its length.
    pub lists: &'static [(&'static str, Length)],
    /// Whether the bits argument is a raw reading: a power, an objective.
    pub raw: bool,
    /// Lent outputs.
    pub sheets: &'static [(&'static str, Word)],
    /// Numbers that the call can answer.
    pub numbers: &'static [u8],
    /// Draws of arguments for each good network.
    pub rounds: usize,
    room: Room,
    /// The answer where no number from 1 to 6 holds.
    answer: fn(&Site, &Args) -> Answer,
    invoke: fn(&mut Memory, &Args) -> u64,
}

fn one_word(_: &Site) -> Option<usize> {
    Some(1)
}

fn one_a_bus(site: &Site) -> Option<usize> {
    site.count(Count::Buses)
}

fn whole_sheet(site: &Site) -> Option<usize> {
    site.shape.as_ref().map(|shape| shape.blocks.length())
}

fn of_program(shape: &Shape) -> Vec<(usize, usize)> {
    shape.program_bounds().to_vec()
}

fn evaluated(site: &Site, args: &Args) -> Answer {
    let (f, pg) = (paper::doubles(&args.lists[0]), paper::doubles(&args.lists[1]));
    one(site.oracle().evaluate(args.index, &f, &pg))
}

/// A call on a network alone that fills one sheet of doubles: what the others don't say otherwise.
const CALL: Op = Op {
    name: "",
    index: None,
    lists: &[],
    raw: false,
    sheets: &[("out", Word::F64)],
    numbers: &[0, 1, 2, 3, 7],
    rounds: 1,
    room: Room::Open,
    answer: |_, _| unreachable!("each call has its own"),
    invoke: |_, _| unreachable!("each call has its own"),
};

const EVALUATE: Op = Op {
    name: "evaluate",
    index: Some(Count::Rows),
    lists: &[("f", Length::Of(Count::Branches)), ("pg", Length::Of(Count::Generators))],
    numbers: &[0, 1, 2, 3, 5, 7],
    rounds: 3,
    room: Room::Counts(one_word),
    answer: evaluated,
    invoke: |memory, args| {
        let out = memory.sheet(0);
        let (f, pg) = (memory.list(0), memory.list(1));
        abi::evaluate(memory.network(), args.index, f, pg, out)
    },
    ..CALL
};

pub static OPS: &[Op] = &[
    Op {
        name: "network_number",
        sheets: &[],
        numbers: &[0, 1, 2, 3],
        room: Room::Open,
        answer: |_, _| Answer { count: 0, fronts: vec![] },
        invoke: |memory, _| abi::network_number(memory.network()),
        ..CALL
    },
    Op {
        name: "shed_cap",
        index: Some(Count::Buses),
        numbers: &[0, 1, 2, 3, 5, 7],
        rounds: 3,
        room: Room::Counts(one_word),
        answer: |site, args| one(site.oracle().shed_cap(args.index)),
        invoke: |memory, args| {
            let out = memory.sheet(0);
            abi::shed_cap(memory.network(), args.index, out)
        },
        ..CALL
    },
    Op {
        name: "current_flow_offset",
        index: Some(Count::Branches),
        numbers: &[0, 1, 2, 3, 5, 7],
        rounds: 2,
        room: Room::Counts(one_word),
        answer: |site, args| one(site.oracle().current_flow_offset(args.index)),
        invoke: |memory, args| {
            let out = memory.sheet(0);
            abi::current_flow_offset(memory.network(), args.index, out)
        },
        ..CALL
    },
    Op {
        name: "generator_cost",
        index: Some(Count::Generators),
        raw: true,
        numbers: &[0, 1, 2, 3, 5, 7],
        rounds: 3,
        room: Room::Counts(one_word),
        answer: |site, args| {
            one(site.oracle().generator_cost(args.index, f64::from_bits(args.bits)))
        },
        invoke: |memory, args| {
            let out = memory.sheet(0);
            abi::generator_cost(memory.network(), args.index, args.bits, out)
        },
        ..CALL
    },
    EVALUATE,
    Op {
        name: "evaluate_terms",
        invoke: |memory, args| {
            let out = memory.sheet(0);
            let (f, pg) = (memory.list(0), memory.list(1));
            abi::evaluate_terms(memory.network(), memory.records(), args.index, f, pg, out)
        },
        ..EVALUATE
    },
    Op {
        name: "row_kind",
        index: Some(Count::Rows),
        sheets: &[],
        numbers: &[0, 1, 2, 3, 5],
        rounds: 3,
        room: Room::Open,
        answer: |site, args| Answer { count: row_kind(site, args.index), fronts: vec![] },
        invoke: |memory, args| abi::row_kind(memory.network(), args.index),
        ..CALL
    },
    Op {
        name: "phase_withdrawal",
        room: Room::Counts(one_a_bus),
        answer: |site, _| all(site.oracle().phase_withdrawal()),
        invoke: |memory, _| {
            let out = memory.sheet(0);
            abi::phase_withdrawal(memory.network(), out)
        },
        ..CALL
    },
    Op {
        name: "network_withdrawal",
        room: Room::Counts(one_a_bus),
        answer: |site, _| all(site.oracle().network_withdrawal()),
        invoke: |memory, _| {
            let out = memory.sheet(0);
            abi::network_withdrawal(memory.network(), out)
        },
        ..CALL
    },
    Op {
        name: "current_fixed_withdrawal",
        room: Room::Counts(one_a_bus),
        answer: |site, _| all(site.oracle().current_fixed_withdrawal()),
        invoke: |memory, _| {
            let out = memory.sheet(0);
            abi::current_fixed_withdrawal(memory.network(), out)
        },
        ..CALL
    },
    Op {
        name: "susceptance_coo",
        sheets: &[("rows", Word::U32), ("cols", Word::U32), ("values", Word::F64)],
        rounds: 2,
        room: Room::Open,
        answer: |site, _| triplets(site.oracle().susceptance_coo()),
        invoke: |memory, _| {
            let (rows, cols, values) = (memory.sheet(0), memory.sheet(1), memory.sheet(2));
            abi::susceptance_coo(memory.network(), rows, cols, values)
        },
        ..CALL
    },
    Op {
        name: "snap",
        lists: &[("solution", Length::Solution)],
        room: Room::Counts(whole_sheet),
        answer: |site, args| all(site.oracle().snap(&paper::doubles(&args.lists[0]))),
        invoke: |memory, _| {
            let out = memory.sheet(0);
            abi::snap(memory.network(), memory.list(0), out)
        },
        ..CALL
    },
    Op {
        name: "snap_linear",
        lists: &[("solution", Length::Solution)],
        room: Room::Counts(|site| site.count(Count::Rows).map(|rows| 3 * rows)),
        answer: |site, args| {
            let duals = site.oracle().snap_linear(&paper::doubles(&args.lists[0]));
            all(duals.into_iter().flatten().collect())
        },
        invoke: |memory, _| {
            let out = memory.sheet(0);
            abi::snap_linear(memory.network(), memory.list(0), out)
        },
        ..CALL
    },
    Op {
        name: "nu_flow_values",
        lists: &[("solution", Length::Solution)],
        room: Room::Counts(|site| site.count(Count::Branches)),
        answer: |site, args| all(site.oracle().nu_flow_values(&paper::doubles(&args.lists[0]))),
        invoke: |memory, _| {
            let out = memory.sheet(0);
            abi::nu_flow_values(memory.network(), memory.list(0), out)
        },
        ..CALL
    },
    Op {
        name: "kkt_triplets",
        lists: &[("solution", Length::SolutionFront)],
        sheets: &[("rows", Word::U32), ("cols", Word::U32), ("values", Word::F64)],
        room: Room::Between(|shape| vec![(shape.matrix_least(), shape.matrix_most()); 3]),
        answer: |site, args| {
            let list = site.oracle().jacobian(&paper::doubles(&args.lists[0]));
            assert!(list.len() <= site.shape().matrix_most(), "the paper's bound of the list");
            assert!(list.len() >= site.shape().matrix_least(), "triplets of every bus");
            triplets(list)
        },
        invoke: |memory, _| {
            let (rows, cols, values) = (memory.sheet(0), memory.sheet(1), memory.sheet(2));
            abi::kkt_triplets(memory.network(), memory.list(0), rows, cols, values)
        },
        ..CALL
    },
    Op {
        name: "nodal_marginal_values",
        lists: &[("solution", Length::Solution)],
        room: Room::Counts(one_a_bus),
        answer: |site, args| {
            all(site.oracle().nodal_marginal_values(&paper::doubles(&args.lists[0])))
        },
        invoke: |memory, _| {
            let out = memory.sheet(0);
            program::nodal_marginal_values(memory.network(), memory.list(0), out)
        },
        ..CALL
    },
    Op {
        name: "read_dc_solution",
        lists: &[("x", Length::Columns), ("z", Length::Rows)],
        raw: true,
        room: Room::Counts(whole_sheet),
        answer: |site, args| {
            let (x, z) = (paper::doubles(&args.lists[0]), paper::doubles(&args.lists[1]));
            all(site.oracle().read_dc_solution(&x, &z, f64::from_bits(args.bits)))
        },
        invoke: |memory, args| {
            let out = memory.sheet(0);
            let (x, z) = (memory.list(0), memory.list(1));
            program::read_dc_solution(memory.network(), x, z, args.bits, out)
        },
        ..CALL
    },
    Op {
        name: "assemble_opf",
        sheets: &OUTPUTS,
        room: Room::Between(of_program),
        answer: |site, _| assembly(site),
        invoke: |memory, _| {
            let sheets = memory.program_sheets();
            program::assemble_opf(memory.network(), sheets)
        },
        ..CALL
    },
    Op {
        name: "assemble_opf by words",
        sheets: &OUTPUTS,
        room: Room::Between(of_program),
        answer: |site, _| assembly(site),
        invoke: |memory, _| {
            let sheets = memory.program_sheets();
            program::typed_assemble_opf(memory.network(), sheets)
        },
        ..CALL
    },
];

/// The outputs of assembly.
const OUTPUTS: [(&str, Word); 9] = [
    ("P's rows", Word::U32),
    ("P's columns", Word::U32),
    ("P's values", Word::F64),
    ("A's rows", Word::U32),
    ("A's columns", Word::U32),
    ("A's values", Word::F64),
    ("q", Word::F64),
    ("b", Word::F64),
    ("cones", Word::U32),
];

/// A's count has 24 bits, P's those above.
const P_COUNT: u32 = 24;

fn assembly(site: &Site) -> Answer {
    let program = site.oracle().assemble();
    let sizes = Program { columns: program.columns, rows: program.rows, decided: true };
    assert!(site.program == Some(sizes), "columns and rows by the paper and by the original");
    let (p, a) = (triplets(program.p), triplets(program.a));
    let mut fronts = p.fronts;
    fronts.extend(a.fronts);
    fronts.extend([Front::F64(program.q), Front::F64(program.b)]);
    fronts.push(Front::U32(program.cones.iter().map(|&size| size as u32).collect()));
    let within =
        |(front, (least, most)): (&Front, (usize, usize))| (least..=most).contains(&front.len());
    let bounds = site.shape().program_bounds();
    assert!(fronts.iter().zip(bounds).all(within), "bounds of the program");
    Answer { count: a.count | p.count << P_COUNT, fronts }
}

fn triplets(list: Vec<(usize, usize, f64)>) -> Answer {
    Answer {
        count: list.len() as u64,
        fronts: vec![
            Front::U32(list.iter().map(|triplet| triplet.0 as u32).collect()),
            Front::U32(list.iter().map(|triplet| triplet.1 as u32).collect()),
            Front::F64(list.iter().map(|triplet| triplet.2).collect()),
        ],
    }
}

/// A row's kind by its mask and limits, which the original's `is_equality` must share.
fn row_kind(site: &Site, row: usize) -> u64 {
    let equal = site.reading(Field::UpperMw, row) == site.reading(Field::LowerMw, row);
    let kind = match site.wire(Wire::RowMasks, row) {
        3 if equal => 4,
        mask => mask,
    };
    let oracle = site.oracle();
    assert!(oracle.row_kind(row) == kind, "row kinds of the oracle");
    assert!(oracle.is_equality(row) == (kind == 4), "is_equality of the oracle");
    u64::from(kind)
}

impl Op {
    /// Pairs of numbers that can hold together, the first of which is answered. Where
    /// number 1 holds of the network itself, nothing else can be read from it.
    pub fn rivals(&self) -> Vec<(u8, u8)> {
        let mut pairs = Vec::new();
        for &low in self.numbers.iter().filter(|&&number| number > 0) {
            for &high in self.numbers.iter().filter(|&&number| number > low) {
                let readable = low > 1 || !self.lists.is_empty();
                let sized = high != 7 || !matches!(self.room, Room::Open);
                if readable && sized {
                    pairs.push((low, high));
                }
            }
        }
        pairs
    }

    /// Arguments for a call: most in order, some broken, each by itself.
    pub fn draw(&self, site: &Site, rng: &mut Rng) -> Args {
        let size = |count: Count| site.count(count).unwrap_or(3);
        let mut list = |length: Length| match length {
            Length::Of(count) => draw_list(rng, size(count), SHEET_LIMIT, sheet_value),
            Length::Columns | Length::Rows => {
                draw_list(rng, programs::length(site, length), READING_LIMIT, value)
            }
            _ => solutions::draw(rng, site, length == Length::SolutionFront),
        };
        let lists = self.lists.iter().map(|of| list(of.1)).collect();
        Args {
            index: self.index.map_or(0, |count| draw_index(rng, size(count))),
            bits: if self.raw { draw_raw(rng) } else { 0 },
            lists,
            lends: match self.sheets.len() {
                9 => programs::draw_lends(rng),
                sheets => draw_lends(rng, sheets),
            },
            roomy: rng.percent(50),
        }
    }

    /// Whether the call takes a solution sheet.
    pub fn solved(&self) -> bool {
        self.lists.iter().any(|list| list.1.is_solution())
    }

    /// Whether the call takes or makes the program.
    pub fn programmed(&self) -> bool {
        self.sheets.len() == 9 || self.lists.iter().any(|list| list.1.is_raw())
    }

    /// The export as it is linked.
    pub fn export(&self) -> &'static str {
        if self.typed() {
            return "problem_assemble_opf";
        }
        let own = |export: &str| export.strip_prefix("capi_") == Some(self.name);
        EXPORTS.iter().find(|export| own(export)).expect("each call has its export")
    }

    /// Whether the call takes typed slices, which have whole words.
    pub fn typed(&self) -> bool {
        self.name == "assemble_opf by words"
    }

    /// Readings in order and outputs that the result fits, for an accepted network.
    pub fn draw_sound(&self, site: &Site, rng: &mut Rng) -> Args {
        let mut sheet = |length: Length| match length {
            Length::Columns | Length::Rows => programs::sound(rng, site, length),
            _ => solutions::sound(rng, site, length == Length::SolutionFront),
        };
        let lists = self.lists.iter().map(|list| bytes_of_doubles(&sheet(list.1))).collect();
        let longer = |rng: &mut Rng| if rng.percent(30) { rng.between(1, 5) as i32 } else { 0 };
        let bits = if self.raw { value(rng).to_bits() } else { 0 };
        let exact = self.programmed() && rng.percent(50);
        let mut words = |_| if exact { 0 } else { longer(rng) };
        let lends = self.sheets.iter().map(|of| Lend { words: words(of), leftover: 0 }).collect();
        Args { lists, lends, bits, ..Args::default() }
    }

    /// Numbers from 1 to 5 that hold of the network and the arguments.
    fn held(&self, site: &Site, args: &Args) -> Held {
        let mut held = site.held;
        if site.shape.is_none() {
            return held;
        }
        if let Some(count) = self.index {
            held = held.and(Held::when(5, args.index >= site.shape().count(count)));
        }
        for (list, &(_, length)) in args.lists.iter().zip(self.lists) {
            if length.is_raw() {
                let decided = site.program.as_ref().filter(|program| program.decided);
                let words = decided.map(|program| length.of_program(program));
                held = held.and(paper::raw_held(list, words));
            } else if let Length::Of(count) = length {
                let broken = |place| !within(double(list, place), SHEET_LIMIT);
                held = held.and(Held::when(1, list.len() != 8 * site.shape().count(count)));
                held = held.and(Held::when(3, (0..list.len() / 8).any(broken)));
            } else {
                let looked_at = length.looked_at(&site.shape().blocks);
                held = held.and(paper::solution_held(list, site.shape(), looked_at));
            }
        }
        if self.raw {
            let raw = f64::from_bits(args.bits);
            held = held.and(Held::when(3, !within(raw, READING_LIMIT)));
        }
        held
    }

    /// The number that would do as well: where the program's size is open, so is whether the
    /// length of a raw vector is wrong.
    fn also(&self, site: &Site) -> Option<u8> {
        let raw = self.lists.iter().any(|list| list.1.is_raw());
        let open = site.program.map_or(false, |program| !program.decided);
        (raw && open).then_some(1)
    }
}

fn draw_index(rng: &mut Rng, length: usize) -> usize {
    match rng.below(100) {
        0..=7 => length,
        8..=10 => usize::MAX,
        11..=12 => length + rng.between(1, 1000),
        13..=16 => (1 << 32) + rng.below(length.max(1)),
        17 => (1 << 63) + rng.below(length.max(1)),
        18..=25 => 0,
        26..=33 => length.saturating_sub(1),
        _ => rng.below(length.max(1)),
    }
}

pub fn draw_broken(rng: &mut Rng, limit: f64) -> f64 {
    let fault = rng.pick(&Fault::ALL);
    broken_double(rng, fault, limit)
}

fn draw_raw(rng: &mut Rng) -> u64 {
    let raw = if rng.percent(10) { draw_broken(rng, READING_LIMIT) } else { value(rng) };
    raw.to_bits()
}

fn draw_list(rng: &mut Rng, length: usize, limit: f64, word: fn(&mut Rng) -> f64) -> Vec<u8> {
    let form = rng.below(100);
    let words = match form {
        0..=3 => length.saturating_sub(1),
        4..=7 => length + 1,
        _ => length,
    };
    let mut list: Vec<f64> = (0..words).map(|_| word(rng)).collect();
    if words > 0 && rng.percent(8) {
        let place = rng.pick(&[0, words / 2, words - 1]);
        list[place] = draw_broken(rng, limit);
    }
    let mut bytes = bytes_of_doubles(&list);
    if (8..=10).contains(&form) {
        let odd = rng.between(1, 7);
        if bytes.len() >= 8 && rng.percent(50) {
            let left = bytes.len() - odd;
            bytes.truncate(left);
        } else {
            bytes.extend(std::iter::repeat(0).take(odd));
        }
    }
    bytes
}

pub fn draw_lend(rng: &mut Rng) -> Lend {
    let leftover = rng.between(1, 7) as u8;
    match rng.below(100) {
        0..=49 => Lend { words: 0, leftover: 0 },
        50..=58 => Lend { words: rng.between(1, 5) as i32, leftover: 0 },
        59..=66 => Lend { words: 0, leftover },
        67..=72 => Lend { words: rng.between(1, 5) as i32, leftover },
        73..=84 => Lend { words: -1, leftover: 0 },
        85..=91 => Lend { words: -1, leftover },
        92..=95 => Lend { words: -(rng.between(2, 4) as i32), leftover: 0 },
        _ => Lend { words: Lend::NOTHING, leftover: 0 },
    }
}

/// Several outputs are short one at a time as often as together.
fn draw_lends(rng: &mut Rng, sheets: usize) -> Vec<Lend> {
    let mut lends = vec![Lend::default(); sheets];
    if sheets == 0 {
        return lends;
    }
    if rng.percent(50) {
        let one = rng.below(sheets);
        lends[one] = draw_lend(rng);
    } else {
        for lend in &mut lends {
            *lend = draw_lend(rng);
        }
    }
    lends
}

/// What a call must do, with the bytes it is lent for each output.
pub struct Expected {
    pub number: u8,
    /// Another number that would do, with nothing written either.
    pub also: Option<u8>,
    pub count: u64,
    /// Empty on refusal.
    pub fronts: Vec<Front>,
    pub sheets: Vec<usize>,
    /// All numbers that are known to hold.
    pub held: Held,
}

/// Words lent where a refusal leaves the result's length open.
const OPEN_RESULT: usize = 3;

fn expect(op: &Op, site: &Site, args: &Args) -> Expected {
    let held = op.held(site, args);
    let lent = |needs: &[usize]| -> Vec<usize> {
        let lends = args.lends.iter().zip(op.sheets).zip(needs);
        lends.map(|((lend, sheet), &need)| lend.bytes(need, sheet.1)).collect()
    };
    let short = |sheets: &[usize], needs: &[usize]| {
        let all = sheets.iter().zip(op.sheets).zip(needs);
        Held::when(7, all.into_iter().any(|((&bytes, sheet), &need)| bytes / sheet.1.size() < need))
    };
    if held.lowest() > 0 {
        let bounds = op.room.bounds(site);
        let needs: Vec<usize> = match (&op.room, &bounds) {
            (Room::Counts(_), Some(bounds)) => bounds.iter().map(|words| words.0).collect(),
            (_, Some(bounds)) if args.roomy => bounds.iter().map(|words| words.1).collect(),
            _ => vec![OPEN_RESULT; op.sheets.len()],
        };
        let sheets = lent(&needs);
        let held = match bounds.filter(|_| site.shape.is_some()) {
            Some(bounds) => {
                let least: Vec<usize> = bounds.iter().map(|words| words.0).collect();
                held.and(short(&sheets, &least))
            }
            None => held,
        };
        let (number, also) = (held.lowest(), op.also(site));
        return Expected { number, also, count: 0, fronts: vec![], sheets, held };
    }
    let answer = (op.answer)(site, args);
    let needs: Vec<usize> = answer.fronts.iter().map(|front| front.len()).collect();
    let sheets = lent(&needs);
    let held = short(&sheets, &needs);
    if held.lowest() > 0 {
        return Expected { number: 7, also: None, count: 0, fronts: vec![], sheets, held };
    }
    let Answer { count, fronts } = answer;
    Expected { number: 0, also: None, count, fronts, sheets, held }
}

/// The sign of a zero is set aside, and one NaN is as good as another.
pub fn same(expected: f64, got: f64) -> bool {
    expected == got || (expected.is_nan() && got.is_nan())
}

/// The first difference between what a call did and what it must do.
fn difference(
    op: &Op,
    site: &Site,
    args: &Args,
    expected: &Expected,
    memory: &Memory,
    answer: u64,
) -> Option<(String, String)> {
    let show = |number: u64, count: u64| match op.sheets.len() {
        9 => {
            let (a, p) = (count & ((1 << P_COUNT) - 1), count >> P_COUNT);
            format!("number {}, {} triplets of A, {} of P", number, a, p)
        }
        _ => format!("number {}, count {}", number, count),
    };
    let due = show(u64::from(expected.number), expected.count);
    let would_do = expected.also.map(u64::from) == Some(answer);
    if answer != u64::from(expected.number) + 256 * expected.count && !would_do {
        return Some((due, show(answer % 256, answer / 256)));
    }
    for (sheet, &(name, word)) in op.sheets.iter().enumerate() {
        let front = expected.fronts.get(sheet);
        if let Some(words) = front.and_then(|front| wrong_word(front, memory, sheet)) {
            return Some((format!("{}, {} {}", due, name, words.0), words.1));
        }
        let length = front.map_or(0, |front| front.len() * word.size());
        if let Some(place) = memory.stray(sheet, length) {
            let kept = format!("{}, {} unchanged but for its first {} bytes", due, name, length);
            return Some((kept, format!("byte {} of {} moved", place, name)));
        }
    }
    if let Some(slice) = memory.moved_network(&site.lent) {
        return Some((due, format!("{} moved", SLICE_NAMES[slice])));
    }
    for (list, bytes) in args.lists.iter().enumerate() {
        if memory.list_moved(list, bytes) {
            return Some((due, format!("{} moved", op.lists[list].0)));
        }
    }
    None
}

fn wrong_word(front: &Front, memory: &Memory, sheet: usize) -> Option<(String, String)> {
    match front {
        Front::U32(words) => {
            let got = memory.front(sheet, 4 * words.len());
            let place = (0..words.len()).find(|&place| word(got, place) != words[place])?;
            let due = format!("word {} is {}", place, words[place]);
            Some((due, word(got, place).to_string()))
        }
        Front::F64(words) => {
            let got = memory.front(sheet, 8 * words.len());
            let wrong = |&place: &usize| !same(words[place], double(got, place));
            let place = (0..words.len()).find(wrong)?;
            let show = |x: f64| format!("{:016x} ({:e})", x.to_bits(), x);
            let due = format!("word {} is {}", place, show(words[place]));
            Some((due, show(double(got, place))))
        }
    }
}

/// Makes one call on a network that `memory` holds and checks all that it did.
pub fn check(
    place: usize,
    site: &Site,
    args: &Args,
    memory: &mut Memory,
    rng: &mut Rng,
    cover: Option<&mut Coverage>,
) -> Option<Mismatch> {
    let op = &OPS[place];
    let expected = expect(op, site, args);
    for (list, bytes) in args.lists.iter().enumerate() {
        memory.fill_list(list, bytes);
    }
    for (sheet, &length) in expected.sheets.iter().enumerate() {
        memory.fill_sheet(sheet, length, rng);
    }
    memory.watch(op.name, args.index, args.bits);
    let answer = (op.invoke)(memory, args);
    if let Some(cover) = cover {
        mark_call(place, site, args, &expected, cover);
    }
    let (due, got) = difference(op, site, args, &expected, memory, answer)?;
    memory.fill_network(&site.lent);
    Some(Mismatch {
        op: place,
        lent: site.lent.clone(),
        args: args.clone(),
        sheets: expected.sheets,
        number: expected.number,
        expected: due,
        got,
        origin: String::new(),
    })
}
