//! Draws calls: selectors of every operand, contractions around a solve, parts and scales.

use oracle::{DcKkt, Differentiable};

use crate::calls::{draw_broken, Site};
use crate::damage::{broken_base, not_a_number, Fault};
use crate::generate::{base, parameter_value, sheet_value, value};
use crate::paper::{PARAMETER_LIMIT, READING_LIMIT};
use crate::parameters::draw::{roomy, short, smooth};
use crate::parameters::rules::SERVED as PARAMETERS_SERVED;
use crate::random::Rng;
use crate::sensitivity::call::{Ask, Call, Contraction, Selector, SHEETS};
use crate::sensitivity::memory::MOST_WORDS;
use crate::sensitivity::rules::{self, ADJOINT, FORWARD, OPERANDS, PARAMETERS, SERVED};

/// The most words of a sheet of columns, and of most of them.
const WORDS: usize = 40_000;
const FEW_WORDS: usize = 4_000;
/// The most columns, and the most elements of a selector that isn't an operand's own.
const FEW: usize = 8;
/// Where dim can't be known, it is taken for this.
const SOME_DIM: usize = 20;

/// A contraction with its columns before and after a solve.
pub struct Script {
    /// Whether the selector's elements are an operand's, and the columns a parameter's.
    pub own: [bool; 2],
    pub contraction: Contraction,
    /// Exactly the parameter columns.
    pub parameter: Vec<f64>,
    pub solved: Vec<f64>,
}

fn ask(rng: &mut Rng, call: Call, room: usize) -> Ask {
    let mut rooms = [0; SHEETS];
    rooms[0] = room.min(MOST_WORDS);
    Ask { call, rooms, behind: rng.percent(50) }
}

/// Dim, as far as it is known.
pub fn dim(site: &Site) -> usize {
    site.shape.as_ref().map_or(SOME_DIM, |_| rules::dim(site))
}

/// How many words the sheets of one contraction may have.
fn most_words(rng: &mut Rng) -> usize {
    if rng.percent(25) {
        WORDS
    } else {
        FEW_WORDS
    }
}

/// A few columns within so many words, but for one that is longer; often none or one.
fn columns(rng: &mut Rng, dim: usize, words: usize) -> usize {
    let most = (words / dim.max(1)).clamp(1, FEW);
    match rng.below(12) {
        0 => 0,
        1 => 1,
        _ => rng.between(1, most),
    }
}

/// A number past the last, or one whose low bits are a number that is known.
pub fn unknown(rng: &mut Rng, known: usize) -> u32 {
    let low = rng.below(known) as u32;
    match rng.below(6) {
        0..=1 => known as u32,
        2..=3 => low + rng.pick(&[1 << 8, 1 << 16, 1 << 31]),
        4 => u32::MAX,
        _ => known as u32 + 1 + rng.below(1000) as u32,
    }
}

// Operands' selectors.

/// Rooms for the selector of an operand with so many elements.
fn selector_ask(rng: &mut Rng, operand: u32, elements: usize) -> Ask {
    let longer = rng.percent(30);
    let mut rooms = [1, elements, elements, elements];
    for room in &mut rooms {
        *room += if longer || rng.percent(20) { rng.between(1, 9) } else { 0 };
    }
    Ask { call: Call::OperandSelector { operand }, rooms, behind: rng.percent(50) }
}

/// Elements of an operand, as far as they are known.
pub fn elements(site: &Site, operand: u32) -> usize {
    rules::served(operand).and_then(|count| site.count(count)).unwrap_or(3)
}

/// A served operand's selector, one of whose sheets is short, or several are.
fn short_selector(rng: &mut Rng, site: &Site) -> Ask {
    let operand = rng.pick(&SERVED).0;
    let mut ask = selector_ask(rng, operand, elements(site, operand));
    let one = rng.below(SHEETS);
    for (sheet, room) in ask.rooms.iter_mut().enumerate() {
        let need = if sheet == 0 { 1 } else { elements(site, operand) };
        if sheet == one || rng.percent(15) {
            *room = short(rng, need);
        }
    }
    ask
}

/// Every operand, some that there are not, and sheets that are short.
pub fn selectors(rng: &mut Rng, site: &Site) -> Vec<Ask> {
    let mut asks = Vec::new();
    for operand in 0..OPERANDS.len() as u32 {
        asks.push(selector_ask(rng, operand, elements(site, operand)));
    }
    for _ in 0..2 {
        asks.push(short_selector(rng, site));
    }
    let operand = unknown(rng, OPERANDS.len());
    asks.push(selector_ask(rng, operand, 3));
    asks
}

/// A selector's call on any network.
pub fn any_selector(rng: &mut Rng, site: &Site) -> Ask {
    match rng.below(10) {
        0..=3 => {
            let operand = rng.pick(&SERVED).0;
            selector_ask(rng, operand, elements(site, operand))
        }
        4..=6 => short_selector(rng, site),
        _ => {
            let known = rng.percent(70);
            let operand =
                if known { rng.below(OPERANDS.len()) as u32 } else { unknown(rng, OPERANDS.len()) };
            selector_ask(rng, operand, elements(site, operand))
        }
    }
}

// Contractions.

/// A sign: mostly one, or anything that is checked as a weight.
pub fn sign(rng: &mut Rng) -> f64 {
    match rng.below(12) {
        0..=3 => 1.0,
        4..=7 => -1.0,
        8 => rng.pick(&[READING_LIMIT, -READING_LIMIT]),
        _ => value(rng),
    }
}

/// The selector of a served operand: all of it, or a few of its elements where they have many
/// words.
fn own_selector(rng: &mut Rng, dim: usize, words: usize, kkt: &DcKkt) -> Selector {
    let operand = OPERANDS[rng.pick(&SERVED).0 as usize];
    let own = kkt.operand_selector(operand).expect("it is served").map;
    let sign = rng.pick(&[1.0, -1.0]);
    if own.len() * dim <= words && rng.percent(80) {
        return Selector::new(&own, sign);
    }
    let few = if own.is_empty() { 0 } else { columns(rng, dim, words) };
    let map: Vec<_> = (0..few).map(|_| own[rng.below(own.len())].clone()).collect();
    Selector::new(&map, sign)
}

/// Elements with no entry, one or several, some of them in the same row.
fn drawn_selector(rng: &mut Rng, dim: usize, words: usize) -> Selector {
    let element = |rng: &mut Rng| {
        let mut entries: Vec<(usize, f64)> = Vec::new();
        let count = match rng.below(10) {
            _ if dim == 0 => 0,
            0..=2 => 0,
            3..=4 => 1,
            _ => rng.between(2, 6),
        };
        for _ in 0..count {
            let any = rng.below(dim);
            let row = match rng.below(10) {
                0..=3 if !entries.is_empty() => entries[rng.below(entries.len())].0,
                4..=5 => rng.pick(&[0, dim - 1]),
                _ => any,
            };
            entries.push((row, value(rng)));
        }
        entries
    };
    let map: Vec<_> = (0..columns(rng, dim, words)).map(|_| element(rng)).collect();
    Selector::new(&map, sign(rng))
}

/// The original's columns of a parameter that has so many to give.
pub fn own_columns(rng: &mut Rng, site: &Site, kkt: &DcKkt, columns: usize) -> Option<Vec<f64>> {
    let (parameter, count, _) = rng.pick(&PARAMETERS_SERVED);
    let elements = smooth(site, parameter, count);
    if elements.is_empty() {
        return None;
    }
    let listed: Vec<usize> = (0..columns).map(|_| rng.pick(&elements) as usize).collect();
    let block = kkt.parameter_jacobian(PARAMETERS[parameter as usize], &listed);
    Some(block.expect("it is served").into_columns())
}

/// Words of which most are zeros of either sign, or few.
pub fn drawn_columns(rng: &mut Rng, words: usize) -> Vec<f64> {
    let zeros = rng.pick(&[30, 95]);
    let word = |rng: &mut Rng| match rng.below(100) {
        part if part < zeros && part % 2 == 0 => 0.0,
        part if part < zeros => -0.0,
        _ => parameter_value(rng),
    };
    (0..words).map(|_| word(rng)).collect()
}

/// A contraction that breaks no rule of its own.
pub fn script(rng: &mut Rng, site: &Site, kkt: Option<&DcKkt>, mode: u32) -> Script {
    let (dim, words) = (dim(site), most_words(rng));
    let own = kkt.filter(|_| rng.percent(35)).map(|kkt| own_selector(rng, dim, words, kkt));
    let mut of_original = [own.is_some(), false];
    let selector = own.unwrap_or_else(|| drawn_selector(rng, dim, words));
    let columns = columns(rng, dim, words);
    let own = kkt.filter(|_| rng.percent(40)).and_then(|kkt| own_columns(rng, site, kkt, columns));
    of_original[1] = own.is_some();
    let parameter = own.unwrap_or_else(|| drawn_columns(rng, dim * columns));
    let contraction = Contraction { mode, selector, columns };
    let sides = if mode == ADJOINT { contraction.elements() } else { columns };
    let solved = (0..dim * sides).map(|_| sheet_value(rng)).collect();
    Script { own: of_original, contraction, parameter, solved }
}

/// A sheet with these words at its front, often longer: nothing behind them is looked at.
fn lengthened(rng: &mut Rng, front: &[f64]) -> Vec<f64> {
    let mut sheet = front.to_vec();
    if rng.percent(30) {
        for _ in 0..rng.between(1, 5) {
            let word = match rng.below(3) {
                0 => not_a_number(rng),
                1 => draw_broken(rng, PARAMETER_LIMIT),
                _ => parameter_value(rng),
            };
            sheet.push(word);
        }
    }
    sheet
}

impl Script {
    /// The first call, its sheet roomy. When forward none is needed.
    pub fn first(&self, rng: &mut Rng, dim: usize) -> Ask {
        let adjoint = self.contraction.mode == ADJOINT;
        let words = if adjoint { dim * self.contraction.elements() } else { 0 };
        let room = roomy(rng, words);
        ask(rng, Call::First { contraction: self.contraction.clone() }, room)
    }

    /// The right side, which the original handed over as these words.
    pub fn right_side(&self, rng: &mut Rng, right: &[f64]) -> Ask {
        let mode = self.contraction.mode;
        let parameter = lengthened(rng, &self.parameter);
        let selection = match mode {
            ADJOINT => lengthened(rng, right),
            _ => (0..rng.below(9)).map(|_| value(rng)).collect(),
        };
        let (count, room) = (right.len(), roomy(rng, right.len()));
        ask(rng, Call::RightSide { mode, count, parameter, selection }, room)
    }

    /// The third call, its sheet roomy.
    pub fn third(&self, rng: &mut Rng) -> Ask {
        let contraction = self.contraction.clone();
        let room = roomy(rng, contraction.elements() * contraction.columns);
        let (parameter, solved) = (lengthened(rng, &self.parameter), self.solved.clone());
        ask(rng, Call::Third { contraction, parameter, solved }, room)
    }
}

// Parts.

/// A part of any two sheets, whose words may be any bits.
pub fn part(rng: &mut Rng) -> Ask {
    let sheet = |rng: &mut Rng| -> Vec<f64> {
        (0..rng.below(13)).map(|_| f64::from_bits(rng.next())).collect()
    };
    let (parameter, selection) = (sheet(rng), sheet(rng));
    let mode = match rng.below(10) {
        0..=3 => FORWARD,
        4..=7 => ADJOINT,
        8 => rules::AUTO,
        _ => unknown(rng, 3),
    };
    let length = if mode == FORWARD { parameter.len() } else { selection.len() };
    let count = match rng.below(20) {
        0..=7 => length,
        8..=10 => length + 1,
        11..=12 => length.saturating_sub(1),
        13..=15 => rng.below(14),
        16 => usize::MAX,
        17 => (1 << 61) + length,
        18 => (1 << 32) + length,
        _ => 0,
    };
    let words = rules::part(mode, count, &parameter, &selection).len();
    let room = match rng.below(10) {
        0..=4 => roomy(rng, words),
        5..=7 => short(rng, words),
        _ => rng.below(14),
    };
    ask(rng, Call::RightSide { mode, count, parameter, selection }, room)
}

// Scales.

/// The scale of an operand and a parameter.
pub fn scale(rng: &mut Rng, operand: u32, parameter: u32) -> Ask {
    let (base, room) = (base(rng), roomy(rng, 1));
    ask(rng, Call::UnitScale { operand, parameter, base }, room)
}

/// A scale that one to three rules refuse.
pub fn refused_scale(rng: &mut Rng) -> Ask {
    let (mut operand, mut parameter) = (rng.below(13) as u32, rng.below(19) as u32);
    let (mut base, mut room) = (base(rng), roomy(rng, 1));
    let first = rng.below(4);
    let broken = [0, 1, 2, 3].map(|rule| rule == first || rng.percent(25));
    if broken[0] {
        let fault = rng.pick(&Fault::ALL);
        base = broken_base(rng, fault);
    }
    if broken[1] {
        operand = unknown(rng, OPERANDS.len());
    }
    if broken[2] {
        parameter = unknown(rng, PARAMETERS.len());
    }
    if broken[3] {
        room = 0;
    }
    ask(rng, Call::UnitScale { operand, parameter, base }, room)
}
