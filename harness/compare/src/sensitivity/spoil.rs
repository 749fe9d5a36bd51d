//! Breaks rules of a contraction, one or several at once.

use crate::calls::draw_broken;
use crate::generate::{sheet_value, value};
use crate::paper::{PARAMETER_LIMIT, READING_LIMIT, SHEET_LIMIT};
use crate::parameters::draw::short;
use crate::random::Rng;
use crate::sensitivity::call::{Ask, Call, Contraction, Selector};
use crate::sensitivity::memory::MOST_WORDS;
use crate::sensitivity::rules::{self, ADJOINT, AUTO};

/// A rule to break.
#[derive(Clone, Copy, PartialEq, Eq)]
enum Rule {
    Sum,
    Lengths,
    Columns,
    Parameter,
    Solved,
    Weight,
    Sign,
    ParameterWord,
    SolvedWord,
    Mode,
    Row,
    Room,
}

/// Those of the first call, in the order in which they are broken.
const OF_FIRST: [Rule; 8] = [
    Rule::Sum,
    Rule::Lengths,
    Rule::Columns,
    Rule::Weight,
    Rule::Sign,
    Rule::Mode,
    Rule::Row,
    Rule::Room,
];

const OF_THIRD: [Rule; 12] = [
    Rule::Sum,
    Rule::Lengths,
    Rule::Columns,
    Rule::Parameter,
    Rule::Solved,
    Rule::Weight,
    Rule::Sign,
    Rule::ParameterWord,
    Rule::SolvedWord,
    Rule::Mode,
    Rule::Row,
    Rule::Room,
];

/// Breaks one rule of the first or the third call, or up to three; what has no entries, columns
/// or elements may keep some.
pub fn spoil(rng: &mut Rng, dim: usize, ask: &mut Ask) {
    let rules: &[Rule] = match ask.call {
        Call::First { .. } => &OF_FIRST,
        _ => &OF_THIRD,
    };
    let mut chosen = vec![rng.pick(rules)];
    while chosen.len() < 3 && rng.percent(45) {
        chosen.push(rng.pick(rules));
    }
    for &rule in rules.iter().filter(|rule| chosen.contains(rule)) {
        break_rule(rng, dim, ask, rule);
    }
}

fn break_rule(rng: &mut Rng, dim: usize, ask: &mut Ask, rule: Rule) {
    if rule == Rule::Room {
        ask.rooms[0] = short_room(rng, dim, &ask.call).min(MOST_WORDS);
        return;
    }
    if let Call::Third { parameter, solved, contraction } = &mut ask.call {
        let front = dim.saturating_mul(contraction.columns).min(parameter.len());
        match rule {
            Rule::Parameter => parameter.truncate(short(rng, front)),
            Rule::Solved => another_length(rng, solved),
            Rule::ParameterWord => break_word(rng, &mut parameter[..front], PARAMETER_LIMIT),
            Rule::SolvedWord => break_word(rng, solved, SHEET_LIMIT),
            _ => {}
        }
    }
    if let Some(contraction) = ask.contraction_mut() {
        let Contraction { mode, selector, columns } = contraction;
        match rule {
            Rule::Sum => another_sum(rng, selector),
            Rule::Lengths => uneven(rng, dim, selector),
            Rule::Columns => *columns = many_columns(rng, dim, *columns),
            Rule::Weight => break_word(rng, &mut selector.weights, READING_LIMIT),
            Rule::Sign => selector.sign = draw_broken(rng, READING_LIMIT),
            Rule::Mode => {
                let low = rng.below(2) as u32;
                *mode = match rng.below(8) {
                    0..=3 => AUTO,
                    4 => 3,
                    5..=6 => low + rng.pick(&[1 << 8, 1 << 16, 1 << 31]),
                    _ => u32::MAX,
                };
            }
            Rule::Row => {
                if !selector.rows.is_empty() {
                    let place = place(rng, selector.rows.len());
                    selector.rows[place] = outside(rng, dim);
                }
            }
            _ => {}
        }
    }
}

/// The front, the middle or the end of so many.
fn place(rng: &mut Rng, length: usize) -> usize {
    rng.pick(&[0, length / 2, length - 1])
}

fn break_word(rng: &mut Rng, words: &mut [f64], limit: f64) {
    if !words.is_empty() {
        let place = place(rng, words.len());
        words[place] = draw_broken(rng, limit);
    }
}

/// A row that there isn't.
pub fn outside(rng: &mut Rng, dim: usize) -> u32 {
    let (end, within) = (dim as u32, rng.below(dim.max(1)) as u32);
    match rng.below(10) {
        0..=4 => end,
        5 => end + rng.between(1, 1000) as u32,
        6 => (1 << 16) + within,
        7 => (1 << 31) + within,
        8 => u32::MAX - within,
        _ => u32::MAX,
    }
}

/// Counts that don't sum to the entries, or do so in 32 bits only.
fn another_sum(rng: &mut Rng, selector: &mut Selector) {
    let counts = &mut selector.counts;
    if counts.len() > 1 && rng.percent(30) {
        // Two of them, so that the sum is the right one again in 32 bits.
        let (first, last) = (rng.below(counts.len() - 1), counts.len() - 1);
        counts[first] = counts[first].wrapping_add(1 << 31);
        counts[last] = counts[last].wrapping_add(1 << 31);
        return;
    }
    if counts.is_empty() {
        return counts.push(1);
    }
    let place = place(rng, counts.len());
    match rng.below(6) {
        0..=1 => counts[place] += 1,
        2..=3 => counts[place] = counts[place].saturating_sub(1),
        4 => counts[place] = u32::MAX,
        _ => counts.push(1),
    }
}

/// Rows and weights of different lengths, the counts in step with either.
fn uneven(rng: &mut Rng, dim: usize, selector: &mut Selector) {
    if rng.percent(50) {
        selector.weights.push(value(rng));
    } else {
        selector.rows.push(rng.below(dim.max(1)) as u32);
    }
    if rng.percent(50) {
        if let Some(count) = selector.counts.last_mut() {
            *count = count.wrapping_add(1);
        }
    }
}

/// More columns than any sheet has: products with dim pass 64 bits, or just don't, or come out
/// the same in 64 or 32 bits. Where dim is 0, products with two elements or four may.
fn many_columns(rng: &mut Rng, dim: usize, columns: usize) -> usize {
    if dim == 0 {
        return rng.pick(&[usize::MAX, 1 << 63, 1 << 63, 1 << 62, 1 << 32]);
    }
    let (most, twos) = (usize::MAX / dim, dim.trailing_zeros());
    match rng.below(8) {
        0 => usize::MAX,
        1 => 1 << 63,
        2 => 1 << 32,
        3 => most.saturating_add(1),
        4 => most,
        5..=6 if twos > 0 => columns + (1 << (64 - twos)),
        5..=6 => columns + (1 << 63),
        _ => columns + (1 << (32 - twos)),
    }
}

fn another_length(rng: &mut Rng, solved: &mut Vec<f64>) {
    match rng.below(6) {
        0..=2 => {
            solved.pop();
        }
        3..=4 => solved.push(sheet_value(rng)),
        _ => solved.clear(),
    }
}

/// A room too small for what the call would write.
fn short_room(rng: &mut Rng, dim: usize, call: &Call) -> usize {
    let words = match call {
        Call::First { contraction } if contraction.mode == ADJOINT => {
            rules::product(dim, contraction.elements())
        }
        Call::Third { contraction, .. } => {
            rules::product(contraction.elements(), contraction.columns)
        }
        _ => 0,
    };
    short(rng, words.min(MOST_WORDS as u128) as usize)
}
