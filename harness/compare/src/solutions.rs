//! Draws solution sheets, and moves a network's readings to where snapping turns.
//!
//! A threshold is met exactly only by numbers small enough for a difference to be exact, so
//! readings and words are drawn around one and two tolerances on purpose.

use crate::calls::Site;
use crate::damage::{broken_double, Fault};
use crate::generate::{above, below, sheet_value};
use crate::paper::{
    bytes_of_doubles, double, tolerance, within, word, Block, Count, Field, Parts, Wire,
    ALLOW_SHED, SHEET_LIMIT,
};
use crate::random::Rng;

/// Just below the tolerance, the tolerance, just above it.
pub fn around(rng: &mut Rng) -> f64 {
    let at = tolerance();
    rng.pick(&[below(at), at, above(at)])
}

/// From 2 to 2.8 tolerances: less any of `around`, the difference is exact.
pub fn few(rng: &mut Rng) -> f64 {
    let steps = rng.next() % 2_000_000_000_000_000;
    f64::from_bits((2.0 * tolerance()).to_bits() + steps)
}

/// The doubles next to one that isn't zero, and itself before them.
pub fn beside(x: f64) -> [f64; 3] {
    let step = |by: i64| f64::from_bits((x.to_bits() as i64 + by) as u64);
    if x == 0.0 {
        [x; 3]
    } else {
        [x, step(1), step(-1)]
    }
}

/// A limit that becomes the target when divided by the base, if one is near.
fn limit(target: f64, base: f64) -> f64 {
    let near = beside(target * base);
    near.into_iter().find(|&x| x / base == target).unwrap_or(near[0])
}

/// Moves some readings of a network to where a sheet can meet a threshold.
pub fn tune(rng: &mut Rng, parts: &mut Parts) {
    parts.head[ALLOW_SHED] = u32::from(rng.percent(85));
    if rng.percent(60) {
        parts.field_mut(Field::Base)[0] = rng.pick(&[1.0, 64.0, 100.0]);
    }
    let base = parts.field_mut(Field::Base)[0];
    for x in parts.field_mut(Field::Demand) {
        match rng.below(10) {
            0..=1 => *x = around(rng),
            2..=4 => *x = few(rng),
            5..=6 => *x = rng.pick(&[1.0, 0.5, 0.0, -1.0]),
            _ => {}
        }
    }
    for (field, sign) in [(Field::Angmax, 1.0), (Field::Angmin, -1.0)] {
        for x in parts.field_mut(field) {
            match rng.below(10) {
                0..=2 => *x = sign * around(rng),
                3..=4 => *x = sign * few(rng),
                5..=6 => *x = sign * rng.pick(&[0.0, 0.5, 1.0]),
                _ => {}
            }
        }
    }
    for x in parts.field_mut(Field::Sw) {
        if rng.percent(30) {
            *x = 1.0;
        }
    }
    for x in parts.field_mut(Field::Slopes) {
        if rng.percent(60) {
            *x = rng.pick(&[0.0, 1.0, -1.0, 2.0, 0.5]);
        }
    }
    for x in parts.field_mut(Field::Intercepts) {
        match rng.below(10) {
            0..=2 => *x = 0.0,
            3..=5 => *x = rng.pick(&[1.0, -1.0, -2.0]) * tolerance(),
            _ => {}
        }
    }
    for (field, sign) in [(Field::UpperMw, 1.0), (Field::LowerMw, -1.0)] {
        for x in parts.field_mut(field) {
            match rng.below(10) {
                0..=1 => *x = limit(sign * around(rng), base),
                2..=3 => *x = limit(sign * few(rng), base),
                _ => {}
            }
        }
    }
    for x in &mut parts.term_coefficient {
        if rng.percent(50) {
            *x = rng.pick(&[1.0, 1.0, -1.0, 2.0, 0.5]);
        }
    }
}

/// A sheet in the making.
struct Draft<'a> {
    site: &'a Site,
    words: Vec<f64>,
}

impl Draft<'_> {
    fn count(&self, count: Count) -> usize {
        self.site.shape().count(count)
    }

    fn block(&mut self, block: Block) -> &mut [f64] {
        let range = self.site.shape().blocks.range(block);
        &mut self.words[range]
    }

    fn word(&self, block: Block, place: usize) -> f64 {
        self.words[self.site.shape().blocks.range(block).start + place]
    }

    /// Sets a word, unless the value is outside its limits.
    fn set(&mut self, block: Block, place: usize, x: f64) {
        if within(x, SHEET_LIMIT) {
            self.block(block)[place] = x;
        }
    }

    /// Angles all equal, a few tolerances apart, or any.
    fn angles(&mut self, rng: &mut Rng) {
        let at = tolerance();
        match rng.below(10) {
            0..=2 => {
                let x = rng.pick(&[0.0, -0.0, 1.0, at]);
                self.block(Block::Va).fill(x);
            }
            3..=5 => {
                for x in self.block(Block::Va) {
                    *x = rng.pick(&[0.0, 0.0, at, -at, 2.0 * at, above(at)]);
                }
            }
            _ => {}
        }
        let branches = self.count(Count::Branches);
        for _ in 0..rng.below(4).min(branches) {
            let e = rng.below(branches);
            let i = self.site.wire(Wire::BrFrom, e) as usize;
            let j = self.site.wire(Wire::BrTo, e) as usize;
            if rng.percent(50) {
                self.block(Block::Va)[j] = 0.0;
            }
            let apart = if rng.percent(50) {
                self.site.reading(Field::Angmax, e) - around(rng)
            } else {
                self.site.reading(Field::Angmin, e) + around(rng)
            };
            self.set(Block::Va, i, self.word(Block::Va, j) + apart);
        }
    }

    fn sheds(&mut self, rng: &mut Rng) {
        for bus in 0..self.count(Count::Buses) {
            let cap = self.site.oracle().shed_cap(bus);
            let shed = match rng.below(10) {
                0..=1 => around(rng),
                2..=4 => cap - around(rng),
                5 => cap,
                6 => rng.pick(&[0.0, -0.0, cap / 2.0]),
                _ => continue,
            };
            self.set(Block::Psh, bus, shed);
        }
    }

    /// Some duals plain, of each sign and each zero.
    fn duals(&mut self, rng: &mut Rng, block: Block) {
        for x in self.block(block) {
            if rng.percent(50) {
                *x = rng.pick(&[1.0, 2.5, 1.0, 0.0, -0.0, -1.0]);
            }
        }
    }

    fn dispatch(&mut self, rng: &mut Rng) {
        let at = tolerance();
        for block in [Block::Pg, Block::F] {
            match rng.below(10) {
                0..=2 => self.block(block).fill(0.0),
                3..=5 => {
                    for x in self.block(block) {
                        *x = rng.pick(&[0.0, at, -at, 2.0 * at, 3.0 * at]);
                    }
                }
                _ => {}
            }
        }
    }

    /// Flows and dispatch that bring a row to one of its limits, or near it.
    fn lean_on_row(&mut self, rng: &mut Rng) {
        let row = rng.below(self.count(Count::Rows));
        let count = |wire: Wire, row: usize| self.site.wire(wire, row) as usize;
        let before = |wire: Wire| (0..row).map(|row| count(wire, row)).sum::<usize>();
        let first = before(Wire::FlowTerms) + before(Wire::GenerationTerms);
        let flows = count(Wire::FlowTerms, row);
        let terms = flows + count(Wire::GenerationTerms, row);
        let base = self.site.reading(Field::Base, 0);
        let (target, dual) = match self.site.wire(Wire::RowMasks, row) {
            0 => return,
            mask if mask == 1 || mask == 3 && rng.percent(50) => {
                (self.site.reading(Field::UpperMw, row) / base - around(rng), 1.0)
            }
            _ => (self.site.reading(Field::LowerMw, row) / base + around(rng), -1.0),
        };
        if rng.percent(70) {
            self.set(Block::LinearDuals, row, dual);
        }
        let mut placed = false;
        for term in 0..terms {
            let block = if term < flows { Block::F } else { Block::Pg };
            let index = word(&self.site.lent.term_index, first + term) as usize;
            let coefficient = double(&self.site.lent.term_coefficient, first + term);
            let x = target / coefficient;
            if !placed && coefficient != 0.0 && within(x, SHEET_LIMIT) {
                self.set(block, index, x);
                placed = true;
            } else {
                self.set(block, index, 0.0);
            }
        }
    }

    /// Each epigraph at or near one of its segments.
    fn epigraphs(&mut self, rng: &mut Rng) {
        let (mut first, mut own_epigraph) = (0, 0);
        for generator in 0..self.count(Count::Generators) {
            let segments = self.site.wire(Wire::Segments, generator) as usize;
            if segments == 0 {
                continue;
            }
            if rng.percent(70) {
                let segment = first + rng.below(segments);
                let slope = self.site.reading(Field::Slopes, segment);
                let intercept = self.site.reading(Field::Intercepts, segment);
                let line = slope * self.word(Block::Pg, generator);
                let slack = around(rng);
                let near = beside(slack + line + intercept);
                let meets = |x: &f64| x - line - intercept == slack;
                let x = near.into_iter().find(meets).unwrap_or(near[0]);
                self.set(Block::Epigraphs, own_epigraph, x);
            }
            first += segments;
            own_epigraph += 1;
        }
    }

    /// The last q + 1 words, which may hold anything.
    fn exempt(&mut self, rng: &mut Rng) {
        let front = self.site.shape().blocks.front();
        for x in &mut self.words[front..] {
            if rng.percent(60) {
                let fault = rng.pick(&Fault::ALL);
                *x = broken_double(rng, fault, SHEET_LIMIT);
            }
        }
    }
}

/// A sheet in order for an accepted network. Where the last q + 1 words are exempt, they
/// sometimes hold what would be refused elsewhere.
pub fn sound(rng: &mut Rng, site: &Site, exempt: bool) -> Vec<f64> {
    let words = (0..site.shape().blocks.length()).map(|_| sheet_value(rng)).collect();
    let mut draft = Draft { site, words };
    draft.angles(rng);
    draft.sheds(rng);
    for block in [Block::GammaUb, Block::GammaLb, Block::SegmentDuals, Block::LinearDuals] {
        draft.duals(rng, block);
    }
    draft.dispatch(rng);
    let rows = draft.count(Count::Rows);
    for _ in 0..rng.below(3).min(rows) {
        draft.lean_on_row(rng);
    }
    draft.epigraphs(rng);
    if exempt && rng.percent(30) {
        draft.exempt(rng);
    }
    draft.words
}

/// A sheet for any network: mostly in order, else of a wrong length or with a broken word.
pub fn draw(rng: &mut Rng, site: &Site, exempt: bool) -> Vec<u8> {
    let mut words = match &site.shape {
        Some(_) if site.held.lowest() == 0 => sound(rng, site, exempt),
        Some(shape) => (0..shape.blocks.length()).map(|_| sheet_value(rng)).collect(),
        None => (0..rng.below(40)).map(|_| sheet_value(rng)).collect(),
    };
    let form = rng.below(100);
    if (10..26).contains(&form) {
        break_word(rng, site, &mut words);
    }
    match form {
        0..=3 => {
            words.pop();
        }
        4..=6 => words.push(sheet_value(rng)),
        7 => words.clear(),
        _ => {}
    }
    let mut bytes = bytes_of_doubles(&words);
    // Some sheets have both a broken word and a wrong length.
    if (8..=10).contains(&form) {
        let odd = rng.between(1, 7);
        if bytes.len() >= 8 && rng.percent(50) {
            let left = bytes.len() - odd;
            bytes.truncate(left);
        } else {
            bytes.extend(std::iter::repeat(0).take(odd));
        }
    }
    bytes
}

/// Breaks a word at the start, in the middle or at the end of one block.
fn break_word(rng: &mut Rng, site: &Site, words: &mut [f64]) {
    let blocks = match &site.shape {
        Some(shape) => &shape.blocks,
        None => return,
    };
    let ranges = Block::ALL.map(|block| blocks.range(block));
    let filled: Vec<_> = ranges.iter().filter(|range| !range.is_empty()).collect();
    let range = filled[rng.below(filled.len())];
    let length = range.len();
    let place = range.start + rng.pick(&[0, length / 2, length - 1]);
    let fault = rng.pick(&Fault::ALL);
    words[place] = broken_double(rng, fault, SHEET_LIMIT);
}
