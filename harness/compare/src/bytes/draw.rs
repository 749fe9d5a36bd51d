//! Draws calls on bytes: good ones, those at a boundary, and damaged ones.

use oracle::{DcKkt, Differentiable};

use crate::bytes::call::{Ask, Call, Element, SHEETS};
use crate::bytes::expect::MOST;
use crate::bytes::memory::MOST_BYTES;
use crate::calls::{draw_broken, Site};
use crate::damage::{broken_base, not_a_number, Fault};
use crate::generate::{base, parameter_value, sheet_value, value};
use crate::paper::{
    bytes_of_doubles, bytes_of_words, set_bits, set_word, Count, PARAMETER_LIMIT, READING_LIMIT,
    SHEET_LIMIT,
};
use crate::parameters::draw::{outside as outside_list, smooth, unserved};
use crate::parameters::rules::{
    piecewise, LINEAR, PARAMETERS, QUADRATIC, SERVED as PARAMETERS_SERVED,
};
use crate::random::Rng;
use crate::sensitivity::draw::{dim, drawn_columns, elements, own_columns, sign, unknown};
use crate::sensitivity::rules::{ADJOINT, AUTO, FORWARD, OPERANDS, SERVED};
use crate::sensitivity::spoil::outside;
use crate::solutions;

/// Bytes of an output that so many bytes fit: exactly, with some that make no word, or more.
fn roomy(rng: &mut Rng, bytes: usize) -> usize {
    match rng.below(10) {
        0..=4 => bytes,
        5..=6 => bytes + rng.between(1, 7),
        7..=8 => bytes + 8 * rng.between(1, 9),
        _ => bytes + 8 * rng.between(1, 9) + rng.between(1, 7),
    }
}

/// Bytes of an output that is one byte short, one word, several, or empty.
fn short(rng: &mut Rng, bytes: usize, size: usize) -> usize {
    let missing = match rng.below(10) {
        0..=3 => 1,
        4..=5 => size,
        6 => size + rng.between(1, size - 1),
        7 => size * rng.between(2, 9),
        _ => bytes,
    };
    bytes.saturating_sub(missing)
}

fn ask(rng: &mut Rng, call: Call, room: usize) -> Ask {
    let mut rooms = [0; SHEETS];
    rooms[0] = room.min(MOST_BYTES);
    Ask { call, rooms, behind: rng.percent(50) }
}

/// A slice some of whose last word's bytes are missing, or with some bytes more.
fn ragged(rng: &mut Rng, bytes: &mut Vec<u8>, size: usize) {
    let odd = rng.between(1, size - 1);
    if bytes.len() >= size && rng.percent(40) {
        let left = bytes.len() - odd;
        bytes.truncate(left);
    } else {
        bytes.extend((0..odd).map(|_| rng.next() as u8));
    }
}

// Parameter columns.

fn column(rng: &mut Rng, site: &Site, solution: &[u8], parameter: u32, column: u32) -> Ask {
    let room = roomy(rng, 8 * dim(site));
    let solution = solution.to_vec();
    ask(rng, Call::ParameterJacobian { solution, parameter, column }, room)
}

/// A column that is served, unless the network has none.
fn served_column(rng: &mut Rng, site: &Site) -> (u32, u32) {
    for _ in 0..4 {
        let (parameter, count, _) = rng.pick(&PARAMETERS_SERVED);
        let columns = match &site.shape {
            Some(_) => smooth(site, parameter, count),
            None => vec![0, 1, 2],
        };
        if !columns.is_empty() {
            return (parameter, rng.pick(&columns));
        }
    }
    (rng.pick(&PARAMETERS_SERVED).0, 0)
}

/// A column that isn't: of another parameter, of no element, or of a piecewise cost.
fn refused_column(rng: &mut Rng, site: &Site) -> (u32, u32) {
    let broken: Vec<u32> = match &site.shape {
        Some(shape) => {
            let all = 0..shape.count(Count::Generators);
            all.filter(|&at| piecewise(site, at)).map(|at| at as u32).collect()
        }
        None => Vec::new(),
    };
    match rng.below(5) {
        0 => (unserved(rng), rng.below(4) as u32),
        1..=2 if !broken.is_empty() => (rng.pick(&[QUADRATIC, LINEAR]), rng.pick(&broken)),
        _ => {
            let (parameter, count, _) = rng.pick(&PARAMETERS_SERVED);
            (parameter, outside_list(rng, site.count(count).unwrap_or(3)))
        }
    }
}

/// Columns of an accepted network with its sheet.
pub fn columns(rng: &mut Rng, site: &Site, solution: &[u8]) -> Vec<Ask> {
    let mut asks = Vec::new();
    for round in 0..5 {
        let (parameter, of) =
            if round == 2 { refused_column(rng, site) } else { served_column(rng, site) };
        let mut ask = column(rng, site, solution, parameter, of);
        if round == 3 || (round == 2 && rng.percent(30)) {
            ask.rooms[0] = short(rng, 8 * dim(site), 8);
        }
        if let (4, Call::ParameterJacobian { solution, .. }) = (round, &mut ask.call) {
            *solution = solutions::draw(rng, site, true);
            if rng.percent(30) {
                ragged(rng, solution, 8);
            }
        }
        asks.push(ask);
    }
    asks
}

/// A column of any network, its sheet in order or not.
pub fn any_column(rng: &mut Rng, site: &Site) -> Ask {
    let (parameter, of) =
        if rng.percent(50) { refused_column(rng, site) } else { served_column(rng, site) };
    let mut solution = solutions::draw(rng, site, true);
    if rng.percent(15) {
        ragged(rng, &mut solution, 8);
    }
    let mut ask = column(rng, site, &solution, parameter, of);
    if rng.percent(30) {
        ask.rooms[0] = short(rng, 8 * dim(site), 8);
    }
    ask
}

// Operands' selectors.

fn selector(rng: &mut Rng, site: &Site, operand: u32, one_short: bool) -> Ask {
    let elements = elements(site, operand);
    let needs = [(8, 8), (4 * elements, 4), (4 * elements, 4), (8 * elements, 8)];
    let (exact, one) = (rng.percent(30), rng.below(SHEETS));
    let mut rooms = needs.map(|need| if exact { need.0 } else { roomy(rng, need.0) });
    if one_short {
        rooms[one] = short(rng, needs[one].0, needs[one].1);
    }
    Ask { call: Call::OperandSelector { operand }, rooms, behind: rng.percent(50) }
}

/// An operand that is not served.
fn unserved_operand(rng: &mut Rng) -> u32 {
    if rng.percent(50) {
        return unknown(rng, OPERANDS.len());
    }
    rng.pick(&[1, 3, 5, 6, 7, 8, 10, 11, 12])
}

pub fn selectors(rng: &mut Rng, site: &Site) -> Vec<Ask> {
    let served = [(); 3].map(|_| rng.pick(&SERVED).0);
    let other = unserved_operand(rng);
    let some_short = rng.percent(40);
    vec![
        selector(rng, site, served[0], false),
        selector(rng, site, served[1], false),
        selector(rng, site, served[2], true),
        selector(rng, site, other, some_short),
    ]
}

pub fn any_selector(rng: &mut Rng, site: &Site) -> Ask {
    let operand = if rng.percent(60) { rng.pick(&SERVED).0 } else { unserved_operand(rng) };
    let some_short = rng.percent(40);
    selector(rng, site, operand, some_short)
}

// Contractions of one element and one column.

/// A contraction that breaks no rule of its own, with its column before and after a solve.
pub struct Script {
    pub element: Element,
    /// Whether the entries are an operand's and the column a parameter's.
    pub own: bool,
    /// Exactly the parameter column.
    pub parameter: Vec<f64>,
    pub solved: Vec<f64>,
}

fn element(mode: u32, sign: f64, entries: &[(usize, f64)]) -> Element {
    let rows: Vec<u32> = entries.iter().map(|entry| entry.0 as u32).collect();
    let weights: Vec<f64> = entries.iter().map(|entry| entry.1).collect();
    Element {
        mode,
        sign,
        entries: entries.len() as u32,
        rows: bytes_of_words(&rows),
        weights: bytes_of_doubles(&weights),
    }
}

/// Entries in rows that there are: none, one, several, some in the same row; rarely as many as are
/// held.
fn entries(rng: &mut Rng, dim: usize) -> Vec<(usize, f64)> {
    let count = match rng.below(100) {
        _ if dim == 0 => 0,
        0 => MOST,
        1..=15 => 0,
        16..=40 => 1,
        _ => rng.between(2, 9),
    };
    let mut entries: Vec<(usize, f64)> = Vec::with_capacity(count);
    for _ in 0..count {
        let row = match rng.below(10) {
            0..=2 if !entries.is_empty() => entries[rng.below(entries.len())].0,
            3..=4 => rng.pick(&[0, dim - 1]),
            _ => rng.below(dim),
        };
        entries.push((row, value(rng)));
    }
    entries
}

pub fn script(rng: &mut Rng, site: &Site, kkt: Option<&DcKkt>, mode: u32) -> Script {
    let dim = dim(site);
    let own_element = kkt.filter(|_| rng.percent(30)).and_then(|kkt| {
        let operand = OPERANDS[rng.pick(&SERVED).0 as usize];
        let map = kkt.operand_selector(operand).expect("it is served").map;
        let place = if map.is_empty() { None } else { Some(rng.below(map.len())) };
        place.map(|place| map[place].clone())
    });
    let own_column = kkt.filter(|_| rng.percent(40)).and_then(|kkt| own_columns(rng, site, kkt, 1));
    let own = own_element.is_some() && own_column.is_some();
    let sign = if own_element.is_some() { 1.0 } else { sign(rng) };
    let entries = own_element.unwrap_or_else(|| entries(rng, dim));
    let parameter = own_column.unwrap_or_else(|| drawn_columns(rng, dim));
    let solved = (0..dim).map(|_| sheet_value(rng)).collect();
    Script { element: element(mode, sign, &entries), own, parameter, solved }
}

/// A sheet with these words at its front, often longer, rarely as long as is held: nothing behind them
/// is looked at.
fn lengthened(rng: &mut Rng, front: &[f64]) -> Vec<u8> {
    let more = match rng.below(100) {
        0..=24 => rng.between(1, 5),
        25 => MOST,
        _ => 0,
    };
    let mut sheet = front.to_vec();
    while sheet.len() < (front.len() + more).min(MOST) {
        let word = match rng.below(3) {
            0 => not_a_number(rng),
            1 => draw_broken(rng, PARAMETER_LIMIT),
            _ => parameter_value(rng),
        };
        sheet.push(word);
    }
    bytes_of_doubles(&sheet)
}

impl Script {
    /// The first call. When forward, no output is needed.
    pub fn first(&self, rng: &mut Rng, dim: usize) -> Ask {
        let adjoint = self.element.mode == ADJOINT;
        let room = if adjoint { roomy(rng, 8 * dim) } else { rng.pick(&[0, 0, 7, 8, 9, 8 * dim]) };
        ask(rng, Call::First { element: self.element.clone() }, room)
    }

    /// The right side, for which the original handed over these words.
    pub fn right_side(&self, rng: &mut Rng, right: &[f64]) -> Ask {
        let mode = self.element.mode;
        let parameter = lengthened(rng, &self.parameter);
        let selection = match mode {
            ADJOINT => lengthened(rng, right),
            _ => bytes_of_doubles(&[1.0, -1.0][..rng.below(3)]),
        };
        let room = roomy(rng, 8 * right.len());
        ask(rng, Call::RightSide { mode, count: right.len(), parameter, selection }, room)
    }

    pub fn third(&self, rng: &mut Rng) -> Ask {
        let parameter = lengthened(rng, &self.parameter);
        let (element, solved) = (self.element.clone(), bytes_of_doubles(&self.solved));
        let room = roomy(rng, 8);
        ask(rng, Call::Third { element, parameter, solved }, room)
    }
}

/// A rule to break.
#[derive(Clone, Copy, PartialEq, Eq)]
enum Rule {
    Entries,
    Uneven,
    LongSelector,
    RaggedRows,
    RaggedWeights,
    Parameter,
    LongParameter,
    RaggedParameter,
    Solved,
    RaggedSolved,
    Weight,
    Sign,
    ParameterWord,
    SolvedWord,
    Mode,
    Row,
    Room,
}

/// In the order in which they are broken: words before lengths.
const RULES: [Rule; 17] = [
    Rule::Weight,
    Rule::Sign,
    Rule::ParameterWord,
    Rule::SolvedWord,
    Rule::Mode,
    Rule::Row,
    Rule::Room,
    Rule::Entries,
    Rule::Uneven,
    Rule::LongSelector,
    Rule::Parameter,
    Rule::LongParameter,
    Rule::Solved,
    Rule::RaggedRows,
    Rule::RaggedWeights,
    Rule::RaggedParameter,
    Rule::RaggedSolved,
];

impl Rule {
    /// Whether it is a rule of the third call alone.
    fn of_third(self) -> bool {
        use Rule::*;
        let of_parameter = [Parameter, LongParameter, RaggedParameter, ParameterWord];
        of_parameter.contains(&self) || [Solved, RaggedSolved, SolvedWord].contains(&self)
    }
}

/// Breaks one rule of the first or the third call, or up to three.
pub fn spoil(rng: &mut Rng, dim: usize, ask: &mut Ask) {
    let third = matches!(ask.call, Call::Third { .. });
    let rules: Vec<Rule> = RULES.into_iter().filter(|rule| third || !rule.of_third()).collect();
    let mut chosen = vec![rng.pick(&rules)];
    while chosen.len() < 3 && rng.percent(40) {
        chosen.push(rng.pick(&rules));
    }
    for &rule in rules.iter().filter(|rule| chosen.contains(rule)) {
        break_rule(rng, dim, ask, rule);
    }
}

fn break_rule(rng: &mut Rng, dim: usize, ask: &mut Ask, rule: Rule) {
    let room = match &ask.call {
        Call::First { element } if element.mode == ADJOINT => 8 * dim,
        Call::Third { .. } => 8,
        _ => 0,
    };
    match &mut ask.call {
        _ if rule == Rule::Room => ask.rooms[0] = short(rng, room, 8),
        Call::First { element } => break_element(rng, dim, element, rule),
        Call::Third { element, parameter, solved } => match rule {
            Rule::Parameter => {
                let words = dim.saturating_sub(rng.between(1, 2));
                parameter.truncate(8 * words);
            }
            Rule::LongParameter => parameter.resize(8 * (MOST + rng.between(1, 3)), 0),
            Rule::RaggedParameter => ragged(rng, parameter, 8),
            Rule::ParameterWord => {
                let words = dim.min(parameter.len() / 8);
                break_word(rng, &mut parameter[..8 * words], PARAMETER_LIMIT);
            }
            Rule::Solved => match rng.below(6) {
                0..=2 => solved.truncate(solved.len().saturating_sub(8)),
                3..=4 => solved.extend(bytes_of_doubles(&[sheet_value(rng)])),
                _ => solved.resize(8 * (MOST + 1), 0),
            },
            Rule::RaggedSolved => ragged(rng, solved, 8),
            Rule::SolvedWord => break_word(rng, solved, SHEET_LIMIT),
            _ => break_element(rng, dim, element, rule),
        },
        _ => {}
    }
}

fn break_element(rng: &mut Rng, dim: usize, element: &mut Element, rule: Rule) {
    let any_row = rng.below(dim.max(1)) as u32;
    match rule {
        Rule::Entries => {
            let entries = element.entries;
            element.entries = match rng.below(8) {
                0..=2 => entries.wrapping_add(1),
                3..=5 => entries.wrapping_sub(1),
                6 => entries.wrapping_add(rng.pick(&[1 << 8, 1 << 16, 1 << 31])),
                _ => u32::MAX,
            };
        }
        Rule::Uneven => {
            if rng.percent(50) {
                element.weights.extend(bytes_of_doubles(&[value(rng)]));
            } else {
                element.rows.extend(bytes_of_words(&[any_row]));
            }
            if rng.percent(50) {
                element.entries = element.entries.wrapping_add(1);
            }
        }
        Rule::LongSelector => {
            let words = MOST + rng.between(1, 3);
            element.rows.resize(4 * words, 0);
            element.weights.resize(8 * words, 0);
            element.entries = words as u32;
        }
        Rule::RaggedRows => ragged(rng, &mut element.rows, 4),
        Rule::RaggedWeights => ragged(rng, &mut element.weights, 8),
        Rule::Weight => break_word(rng, &mut element.weights, READING_LIMIT),
        Rule::Sign => element.sign = draw_broken(rng, READING_LIMIT),
        Rule::Mode => {
            let low = rng.below(2) as u32;
            element.mode = match rng.below(8) {
                0..=3 => AUTO,
                4 => 3,
                5..=6 => low + rng.pick(&[1 << 8, 1 << 16, 1 << 31]),
                _ => u32::MAX,
            };
        }
        Rule::Row => {
            if element.rows.len() >= 4 {
                let place = place(rng, element.rows.len() / 4);
                set_word(&mut element.rows, place, outside(rng, dim));
            }
        }
        _ => {}
    }
}

/// The front, the middle or the end of so many.
fn place(rng: &mut Rng, length: usize) -> usize {
    rng.pick(&[0, length / 2, length - 1])
}

fn break_word(rng: &mut Rng, bytes: &mut [u8], limit: f64) {
    if bytes.len() >= 8 {
        let place = place(rng, bytes.len() / 8);
        set_bits(bytes, place, draw_broken(rng, limit).to_bits());
    }
}

// Parts.

/// A part of any two sheets, whose words may be any bits; some ragged, some longer than is held.
pub fn part(rng: &mut Rng) -> Ask {
    let mut sheet = || -> Vec<u8> {
        let words = match rng.below(60) {
            0 => MOST,
            1 => MOST + 1,
            2 => MOST + rng.between(2, 9),
            _ => rng.below(13),
        };
        let mut bytes: Vec<u8> = (0..words).flat_map(|_| rng.next().to_le_bytes()).collect();
        if rng.percent(12) {
            ragged(rng, &mut bytes, 8);
        }
        bytes
    };
    let (parameter, selection) = (sheet(), sheet());
    let mode = match rng.below(10) {
        0..=3 => FORWARD,
        4..=7 => ADJOINT,
        8 => AUTO,
        _ => unknown(rng, 3),
    };
    let length = if mode == FORWARD { parameter.len() / 8 } else { selection.len() / 8 };
    let count = match rng.below(20) {
        0..=9 => length,
        10..=11 => length + 1,
        12..=13 => length.saturating_sub(1),
        14..=15 => rng.below(14),
        16 => usize::MAX,
        17 => (1 << 61) + length,
        18 => (1 << 32) + length,
        _ => 0,
    };
    let words = count.min(length);
    let room = match rng.below(10) {
        0..=5 => roomy(rng, 8 * words),
        6..=8 => short(rng, 8 * words, 8),
        _ => rng.below(100),
    };
    ask(rng, Call::RightSide { mode, count, parameter, selection }, room)
}

// Scales.

pub fn scale(rng: &mut Rng) -> Ask {
    let (operand, parameter) =
        (rng.below(OPERANDS.len()) as u32, rng.below(PARAMETERS.len()) as u32);
    let (base, room) = (base(rng), roomy(rng, 8));
    ask(rng, Call::UnitScale { operand, parameter, base }, room)
}

/// A scale that one to three rules refuse.
pub fn refused_scale(rng: &mut Rng) -> Ask {
    let mut refused = scale(rng);
    let first = rng.below(4);
    let broken = [0, 1, 2, 3].map(|rule| rule == first || rng.percent(25));
    if let Call::UnitScale { operand, parameter, base } = &mut refused.call {
        if broken[0] {
            let fault = rng.pick(&Fault::ALL);
            *base = broken_base(rng, fault);
        }
        if broken[1] {
            *operand = unknown(rng, OPERANDS.len());
        }
        if broken[2] {
            *parameter = unknown(rng, PARAMETERS.len());
        }
    }
    if broken[3] {
        refused.rooms[0] = short(rng, 8, 8);
    }
    refused
}
