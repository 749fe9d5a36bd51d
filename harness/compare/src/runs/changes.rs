//! Draws the changes of a run: valid ones, which cross the thresholds of snapping both ways and
//! make list entries come and go, among ones that are refused, and readings put back.

use crate::calls::Site;
use crate::damage::{broken_double, Fault};
use crate::generate::{above, below, value};
use crate::paper::{double, tolerance, Block, Count, Field, Shape, Wire, READING_LIMIT};
use crate::random::Rng;
use crate::runs::table::{Change, KINDS};
use crate::solutions::{around, beside, few};

const MOST: usize = 200;

/// Percent of changes with a kind, an index or a value that is refused.
struct Refused {
    kind: usize,
    index: usize,
    value: usize,
}

/// The changes of a run from a network. The sheet's words are given where network and sheet
/// are accepted.
pub fn draw(rng: &mut Rng, site: &Site, solution: Option<&[f64]>) -> Vec<Change> {
    let refused = match solution {
        Some(_) => Refused { kind: 5, index: 5, value: 6 },
        None => Refused { kind: 25, index: 25, value: 25 },
    };
    let pen = Pen { site, solution, refused, shift: rng.below(1000) };
    let back = rng.percent(25);
    let most = if back { MOST / 2 } else { MOST };
    let count = draw_count(rng, site).min(most);
    let mut changes = Vec::with_capacity(count);
    for _ in 0..count {
        let earlier = if changes.is_empty() { None } else { Some(rng.pick(&changes)) };
        let again = earlier.filter(|_| rng.percent(15)).and_then(|change| pen.put_back(change));
        changes.push(again.unwrap_or_else(|| pen.change(rng)));
    }
    if back {
        pen.put_all_back(rng, &mut changes);
    }
    changes
}

/// Mostly few, and fewer on a network whose list is long.
fn draw_count(rng: &mut Rng, site: &Site) -> usize {
    let count = match rng.below(100) {
        0..=34 => rng.between(1, 4),
        35..=69 => rng.between(5, 20),
        70..=91 => rng.between(21, 60),
        92..=98 => rng.between(61, 120),
        _ => rng.between(121, MOST),
    };
    match site.count(Count::Branches).unwrap_or(0) {
        0..=20 => count,
        21..=100 => count.min(40),
        _ => count.min(6),
    }
}

struct Pen<'a> {
    site: &'a Site,
    solution: Option<&'a [f64]>,
    refused: Refused,
    /// Where the few elements that most changes are about begin.
    shift: usize,
}

impl Pen<'_> {
    fn change(&self, rng: &mut Rng) -> Change {
        let mut kind = self.kind(rng);
        let field = KINDS[kind - 1];
        let length = self.site.shape.as_ref().map_or(3, |shape| shape.field_range(field).len());
        let mut index = match length {
            0 => 0,
            _ if rng.percent(75) => (self.shift + rng.below(length.min(4))) % length,
            _ => rng.below(length),
        };
        let mut x = if length > 0 { self.value(rng, field, index) } else { value(rng) };
        if rng.percent(self.refused.kind) {
            kind = rng.pick(&[0, 10, 11, 12, 13, 14, 15]);
        }
        if rng.percent(self.refused.index) {
            index = past(rng, length);
        }
        if rng.percent(self.refused.value) {
            let fault = rng.pick(&Fault::ALL);
            x = broken_double(rng, fault, READING_LIMIT);
        }
        Change::new(kind as u32, index as u32, x)
    }

    /// A kind from 1 to 9, mostly one that there is an element for.
    fn kind(&self, rng: &mut Rng) -> usize {
        let there = |shape: &Shape, kind: usize| !shape.field_range(KINDS[kind - 1]).is_empty();
        let kinds: Vec<usize> = match &self.site.shape {
            Some(shape) => (1..=KINDS.len()).filter(|&kind| there(shape, kind)).collect(),
            None => Vec::new(),
        };
        if kinds.is_empty() || rng.percent(2) {
            rng.between(1, KINDS.len())
        } else {
            rng.pick(&kinds)
        }
    }

    /// The first value of the reading that a change sets; none if it names no reading.
    fn put_back(&self, change: Change) -> Option<Change> {
        let place = change.place(self.site.shape.as_ref()?)?;
        let first = double(&self.site.lent.readings, place);
        Some(Change::new(change.kind(), change.index() as u32, first))
    }

    /// The first value of every reading that a change sets, in any order.
    fn put_all_back(&self, rng: &mut Rng, changes: &mut Vec<Change>) {
        let mut back: Vec<Change> =
            changes.iter().filter_map(|&change| self.put_back(change)).collect();
        back.sort_unstable_by_key(|change| change.head);
        back.dedup();
        while !back.is_empty() {
            let next = rng.below(back.len());
            changes.push(back.swap_remove(next));
        }
    }

    /// A value for an element that there is, often where the matrix turns.
    fn value(&self, rng: &mut Rng, field: Field, index: usize) -> f64 {
        let solution = match self.solution {
            Some(solution) if rng.percent(70) => solution,
            _ => return value(rng),
        };
        let blocks = &self.site.shape().blocks;
        let word = |block: Block, place: usize| solution[blocks.range(block).start + place];
        match field {
            Field::Demand => demand(rng, word(Block::Psh, index)),
            Field::Fmax => {
                let flow = word(Block::F, index);
                let flow = rng.pick(&[flow, -flow]);
                rng.pick(&beside(flow))
            }
            Field::Sw => rng.pick(&[0.0, 0.0, -0.0, 1.0, 1.0, 1.0, -1.0, 0.5]),
            Field::B => self.susceptance(rng, index),
            Field::Angmin | Field::Angmax => {
                let end = |wire: Wire| self.site.wire(wire, index) as usize;
                let (i, j) = (end(Wire::BrFrom), end(Wire::BrTo));
                angle(rng, field, word(Block::Va, i) - word(Block::Va, j))
            }
            Field::Cq => rng.pick(&[0.0, 0.0, -0.0, 1.0, 0.5, f64::from_bits(1)]),
            _ => rng.pick(&beside(word(Block::Pg, index))),
        }
    }

    /// None, one whose sum with a parallel branch's vanishes, or a plain one.
    fn susceptance(&self, rng: &mut Rng, index: usize) -> f64 {
        let ends = |e: usize| {
            let (i, j) = (self.site.wire(Wire::BrFrom, e), self.site.wire(Wire::BrTo, e));
            (i.min(j), i.max(j))
        };
        let branches = self.site.shape().count(Count::Branches);
        let parallel = (0..branches).find(|&e| e != index && ends(e) == ends(index));
        match parallel {
            Some(e) if rng.percent(40) => -self.site.reading(Field::B, e),
            _ => rng.pick(&[0.0, 0.0, -0.0, 1.0, -4.0, -0.1, f64::MIN_POSITIVE]),
        }
    }
}

/// An index that is not below the length.
fn past(rng: &mut Rng, length: usize) -> usize {
    match rng.below(6) {
        0..=1 => length,
        2 => length + rng.between(1, 20),
        3 => 0x0FFF_FFFF,
        // Low bits in range.
        4 => (1 << rng.between(16, 27)) | rng.below(length.max(1)),
        _ => length + rng.between(1, 100_000),
    }
}

/// A demand around the tolerance, or around the shed and a tolerance.
fn demand(rng: &mut Rng, shed: f64) -> f64 {
    if (tolerance()..=1.0).contains(&shed) && rng.percent(85) {
        let room = around(rng);
        let near = beside(shed + room);
        return near.into_iter().find(|x| x - shed == room).unwrap_or(near[0]);
    }
    match rng.below(10) {
        0..=4 => around(rng),
        5 => few(rng),
        6..=7 => rng.pick(&[0.0, -0.0, -1.0]),
        8 => rng.pick(&beside(shed)),
        _ => rng.pick(&[1.0, 0.5]),
    }
}

/// A limit whose slack is none, the tolerance, one double beside it, or some tolerances.
fn angle(rng: &mut Rng, field: Field, apart: f64) -> f64 {
    let at = tolerance();
    let some = few(rng);
    let slack = rng.pick(&[0.0, below(at), at, above(at), some]);
    if field == Field::Angmax {
        let near = beside(apart + slack);
        near.into_iter().find(|x| x - apart == slack).unwrap_or(near[0])
    } else {
        let near = beside(apart - slack);
        near.into_iter().find(|x| apart - x == slack).unwrap_or(near[0])
    }
}
