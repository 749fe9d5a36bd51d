//! Draws networks that break none of the paper's rules, unless asked for counts above limits.

use crate::paper::{
    tolerance, Count, Field, Parts, Wire, ALLOW_SHED, BASE_HIGH, BASE_LOW, HEAD, OBJECTIVE,
    PARAMETER_LIMIT, READING_LIMIT, SHEET_LIMIT,
};
use crate::random::Rng;

/// The double after or before a positive one.
pub fn above(x: f64) -> f64 {
    f64::from_bits(x.to_bits() + 1)
}

pub fn below(x: f64) -> f64 {
    f64::from_bits(x.to_bits() - 1)
}

/// Counts of a network to draw, and how many terms of each kind it has at least.
#[derive(Clone, Debug)]
pub struct Sizes {
    pub counts: [usize; 7],
    pub flow_terms: usize,
    pub generation_terms: usize,
}

impl Sizes {
    pub fn at_least(&mut self, count: Count, least: usize) {
        let own = &mut self.counts[count as usize];
        *own = (*own).max(least);
    }

    pub fn set(&mut self, count: Count, value: usize) {
        self.counts[count as usize] = value;
    }

    fn count(&self, count: Count) -> usize {
        self.counts[count as usize]
    }

    /// Adds what the counts cannot do without: a row for terms, a generator for segments,
    /// a bus for whatever stands at one.
    pub fn fit(&mut self) {
        let forced = self.flow_terms + self.generation_terms;
        self.at_least(Count::Terms, forced);
        if self.flow_terms > 0 {
            self.at_least(Count::Branches, 1);
        }
        if self.generation_terms > 0 {
            self.at_least(Count::Generators, 1);
        }
        if self.count(Count::Terms) > 0 {
            self.at_least(Count::Rows, 1);
            if self.count(Count::Generators) == 0 {
                self.at_least(Count::Branches, 1);
            }
        }
        if self.count(Count::Segments) > 0 {
            self.at_least(Count::Generators, 1);
        }
        let standing = [Count::Branches, Count::Generators, Count::References];
        if standing.iter().any(|&count| self.count(count) > 0) {
            self.at_least(Count::Buses, 1);
        }
    }
}

const SMALL: [usize; 7] = [7, 12, 6, 4, 9, 6, 14];
const MEDIUM: [usize; 7] = [40, 80, 40, 16, 100, 30, 100];

/// The most of each count in most runs of changes.
const RUN_MOST: [usize; 7] = [8, 10, 5, 3, 5, 3, 6];

/// One of this many cases takes each count to its limit.
const LIMIT_TURN: u64 = 250;
/// One of this many cases takes all counts to their limits.
const FULL_TURN: u64 = 4000;
/// One of this many networks for solution sheets has all counts at their limits.
const LARGEST_TURN: u64 = 80;
/// One of this many runs of changes has all counts at their limits.
const RUN_TURN: u64 = 1000;

/// Sizes of the case with this serial number: mostly small, each limit in its turn.
pub fn sizes(rng: &mut Rng, serial: u64) -> Sizes {
    let mut sizes = draw_sizes(rng);
    let turn = serial % LIMIT_TURN;
    if turn < 7 {
        let count = Count::ALL[turn as usize];
        sizes.set(count, count.limit());
    }
    if serial % FULL_TURN == LIMIT_TURN / 2 {
        for count in Count::ALL {
            sizes.set(count, count.limit());
        }
    }
    sizes.fit();
    sizes
}

/// Sizes of a network whose sheets lean on the thresholds: small, or all at their limits.
pub fn solved_sizes(rng: &mut Rng, serial: u64) -> Sizes {
    let mut sizes = draw_sizes(rng);
    if serial % LARGEST_TURN == LARGEST_TURN / 2 {
        for count in Count::ALL {
            sizes.set(count, count.limit());
        }
    }
    sizes.fit();
    sizes
}

/// Sizes of a network for a run of changes: mostly of a few buses, medium or all at their limits
/// in their turn.
pub fn run_sizes(rng: &mut Rng, serial: u64) -> Sizes {
    let mut sizes = Sizes { counts: [0; 7], flow_terms: 0, generation_terms: 0 };
    for count in Count::ALL {
        let size = match serial % RUN_TURN {
            0 => count.limit(),
            turn if turn % 50 == 1 => rng.between(2, MEDIUM[count as usize]),
            _ if count == Count::Buses => rng.between(1, RUN_MOST[0]),
            _ => rng.below(RUN_MOST[count as usize] + 1),
        };
        sizes.set(count, size);
    }
    sizes.fit();
    sizes
}

/// Sizes at which a network and its matrix can be read by eye.
pub fn small_sizes(rng: &mut Rng) -> Sizes {
    let counts = [4, 4, 3, 2, 3, 2, 4].map(|most| rng.below(most + 1));
    let mut sizes = Sizes { counts, flow_terms: 0, generation_terms: 0 };
    sizes.fit();
    sizes
}

fn draw_sizes(rng: &mut Rng) -> Sizes {
    let mut sizes = Sizes { counts: [0; 7], flow_terms: 0, generation_terms: 0 };
    let scale = rng.below(1000);
    if scale < 40 {
        // No bus, hence nothing that stands at one; rows may be without terms.
        sizes.set(Count::Rows, rng.below(4));
        return sizes;
    }
    for count in Count::ALL {
        let most = if scale < 920 {
            SMALL[count as usize]
        } else if scale < 992 {
            MEDIUM[count as usize]
        } else {
            count.limit()
        };
        let size = match rng.below(100) {
            0..=7 => 0,
            8..=17 => 1,
            _ => rng.between(2, most),
        };
        sizes.set(count, size);
    }
    sizes
}

/// A double of either sign with this binary exponent and any fraction.
fn scaled(rng: &mut Rng, exponent: i64) -> f64 {
    let bits = rng.next();
    let fraction = bits & 0x800F_FFFF_FFFF_FFFF;
    f64::from_bits(fraction | (((1023 + exponent) as u64) << 52))
}

fn either_sign(rng: &mut Rng, x: f64) -> f64 {
    if rng.percent(50) {
        -x
    } else {
        x
    }
}

/// A value around the tolerance, of either sign: just below, at, just above.
fn near_tolerance(rng: &mut Rng) -> f64 {
    let at = tolerance();
    let x = rng.pick(&[below(at), at, above(at)]);
    either_sign(rng, x)
}

fn subnormal(rng: &mut Rng) -> f64 {
    let bits = match rng.below(3) {
        0 => 1,
        1 => 0x000F_FFFF_FFFF_FFFF,
        _ => rng.next() >> 12,
    };
    let x = f64::from_bits(bits);
    either_sign(rng, x)
}

/// A value within `limit`, with those at which answers turn drawn often.
fn value_within(rng: &mut Rng, limit: f64, greatest_exponent: i64) -> f64 {
    match rng.below(20) {
        0 => 0.0,
        1 => -0.0,
        2 => rng.pick(&[1.0, -1.0]),
        3 => rng.below(19) as f64 - 9.0,
        4 => near_tolerance(rng),
        5 => {
            let x = rng.pick(&[limit, below(limit)]);
            either_sign(rng, x)
        }
        6 => subnormal(rng),
        // Small enough for products to underflow.
        7 => {
            let exponent = -(rng.between(500, 600) as i64);
            scaled(rng, exponent)
        }
        8..=11 => {
            let exponent = rng.between(0, 3) as i64;
            scaled(rng, exponent)
        }
        12..=14 => (rng.below(2001) as f64 - 1000.0) / 100.0,
        _ => {
            let exponent = rng.below(60) as i64 + greatest_exponent - 59;
            scaled(rng, exponent)
        }
    }
}

/// A network or raw reading: 2^39 is the greatest power of two below 10^12.
pub fn value(rng: &mut Rng) -> f64 {
    value_within(rng, READING_LIMIT, 38)
}

/// A sheet reading: 2^49 is the greatest power of two below 10^15.
pub fn sheet_value(rng: &mut Rng) -> f64 {
    value_within(rng, SHEET_LIMIT, 48)
}

/// A word of a parameter sheet: 2^199 is the greatest power of two below 10^60.
pub fn parameter_value(rng: &mut Rng) -> f64 {
    value_within(rng, PARAMETER_LIMIT, 198)
}

pub fn base(rng: &mut Rng) -> f64 {
    match rng.below(10) {
        0 => BASE_LOW,
        1 => BASE_HIGH,
        2 => above(BASE_LOW),
        3 => below(BASE_HIGH),
        4..=6 => 100.0,
        _ => {
            let exponent = rng.below(27) as i64 - 9;
            scaled(rng, exponent).abs()
        }
    }
}

fn switch(rng: &mut Rng) -> f64 {
    match rng.below(10) {
        0..=4 => 1.0,
        5 => 0.0,
        6 => -0.0,
        _ => value(rng),
    }
}

fn demand(rng: &mut Rng) -> f64 {
    match rng.below(10) {
        0..=1 => near_tolerance(rng),
        2 => 0.0,
        3 => -0.0,
        _ => value(rng),
    }
}

fn reading(rng: &mut Rng, field: Field) -> f64 {
    match field {
        Field::Base => base(rng),
        Field::Sw => switch(rng),
        Field::Demand => demand(rng),
        _ => value(rng),
    }
}

/// Both ends of a branch: any two buses, one bus twice, or those of an earlier branch.
fn ends(rng: &mut Rng, buses: usize, from: &[u32], to: &[u32]) -> (u32, u32) {
    let any = (rng.below(buses) as u32, rng.below(buses) as u32);
    match rng.below(10) {
        0 => (any.0, any.0),
        1 | 2 if !from.is_empty() => {
            let earlier = rng.below(from.len());
            if rng.percent(50) {
                (from[earlier], to[earlier])
            } else {
                (to[earlier], from[earlier])
            }
        }
        _ => any,
    }
}

/// Deals `total` out to some of `shares` places; nothing is left over if there is a place.
fn deal(rng: &mut Rng, total: usize, shares: usize) -> Vec<u32> {
    let mut dealt = vec![0; shares];
    if shares == 0 {
        return dealt;
    }
    // Takers begin anywhere, so that the first or the last place may have none.
    let first = rng.below(shares);
    let takers = rng.between(1, shares);
    for _ in 0..total {
        dealt[(first + rng.below(takers)) % shares] += 1;
    }
    dealt
}

fn deal_terms(rng: &mut Rng, sizes: &Sizes, parts: &mut Parts) {
    let (m, k) = (sizes.count(Count::Branches), sizes.count(Count::Generators));
    let total = sizes.count(Count::Terms);
    let most = total - sizes.generation_terms;
    let flow = if m == 0 {
        0
    } else if k == 0 {
        total
    } else {
        rng.between(sizes.flow_terms.min(most), most)
    };
    let rows = sizes.count(Count::Rows);
    let flow_counts = deal(rng, flow, rows);
    let generation_counts = deal(rng, total - flow, rows);
    for row in 0..rows {
        for _ in 0..flow_counts[row] {
            parts.term_index.push(rng.below(m) as u32);
        }
        for _ in 0..generation_counts[row] {
            parts.term_index.push(rng.below(k) as u32);
        }
    }
    parts.term_coefficient = (0..total).map(|_| value(rng)).collect();
    *parts.wire_mut(Wire::FlowTerms) = flow_counts;
    *parts.wire_mut(Wire::GenerationTerms) = generation_counts;
}

/// Both limits of a row: often equal, whatever its mask, and often zeros of either sign.
fn row_limits(rng: &mut Rng) -> (f64, f64) {
    let upper = value(rng);
    match rng.below(8) {
        0..=2 => (upper, upper),
        3 => (0.0, -0.0),
        4 => (-0.0, 0.0),
        5 => {
            let near = if upper == 0.0 { 0.0 } else { below(upper) };
            (upper, near)
        }
        _ => (upper, value(rng)),
    }
}

/// A network of these sizes, which must fit one another.
pub fn parts(rng: &mut Rng, sizes: &Sizes) -> Parts {
    let mut head = [0; HEAD];
    for count in Count::ALL {
        head[count as usize] = sizes.count(count) as u32;
    }
    head[ALLOW_SHED] = u32::from(rng.percent(75));
    head[OBJECTIVE] = rng.below(3) as u32;
    let mut parts = Parts {
        head,
        wires: Default::default(),
        fields: Default::default(),
        term_index: Vec::new(),
        term_coefficient: Vec::new(),
    };
    wire_up(rng, sizes, &mut parts);
    deal_terms(rng, sizes, &mut parts);
    for field in Field::ALL {
        let length = field.length().map_or(1, |count| sizes.count(count));
        *parts.field_mut(field) = (0..length).map(|_| reading(rng, field)).collect();
    }
    for row in 0..sizes.count(Count::Rows) {
        let (upper, lower) = row_limits(rng);
        parts.field_mut(Field::UpperMw)[row] = upper;
        parts.field_mut(Field::LowerMw)[row] = lower;
    }
    parts
}

fn wire_up(rng: &mut Rng, sizes: &Sizes, parts: &mut Parts) {
    let buses = sizes.count(Count::Buses);
    let (mut from, mut to) = (Vec::new(), Vec::new());
    for _ in 0..sizes.count(Count::Branches) {
        let (i, j) = ends(rng, buses, &from, &to);
        from.push(i);
        to.push(j);
    }
    *parts.wire_mut(Wire::BrFrom) = from;
    *parts.wire_mut(Wire::BrTo) = to;
    let segments = deal(rng, sizes.count(Count::Segments), sizes.count(Count::Generators));
    *parts.wire_mut(Wire::Segments) = segments;
    let buses_or_flags = [
        (Wire::GenBus, buses),
        (Wire::References, buses),
        (Wire::GeneratorFlags, 2),
        (Wire::ThermalFlags, 2),
        (Wire::AngleFlags, 2),
        (Wire::RowMasks, 4),
    ];
    for (wire, end) in buses_or_flags {
        let length = sizes.count(wire.length());
        *parts.wire_mut(wire) = (0..length).map(|_| rng.below(end) as u32).collect();
    }
    // Equality needs both limits: as often as the other masks together.
    for mask in parts.wire_mut(Wire::RowMasks) {
        if rng.percent(30) {
            *mask = 3;
        }
    }
}
