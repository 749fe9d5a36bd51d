//! Makes a mismatch smaller: removes elements and plain values for as long as it stays one.

use std::time::{Duration, Instant};

use crate::abi::Memory;
use crate::calls::{check, Args, Lend, Length, Site, OPS};
use crate::paper::{Block, Blocks, Count, Field, Lent, Parts, Wire};
use crate::programs;
use crate::random::Rng;
use crate::report::Mismatch;

const TIME: Duration = Duration::from_secs(8);

struct Shrinker<'a> {
    memory: &'a mut Memory,
    rng: Rng,
    best: Mismatch,
    until: Instant,
}

/// The smallest mismatch in the same call that removals lead to within a few seconds.
pub fn shrink(mismatch: Mismatch, memory: &mut Memory, seed: u64) -> Mismatch {
    let mut shrinker =
        Shrinker { memory, rng: Rng::new(seed, 0), best: mismatch, until: Instant::now() + TIME };
    while shrinker.round() {}
    shrinker.best
}

impl Shrinker<'_> {
    fn over(&self) -> bool {
        Instant::now() >= self.until
    }

    /// Keeps a candidate if the call still goes wrong on it.
    fn attempt(&mut self, lent: Lent, mut args: Args) -> bool {
        if self.over() {
            return false;
        }
        let (site, op) = (Site::new(lent), &OPS[self.best.op]);
        if op.typed() && !site.whole() {
            return false;
        }
        if op.programmed() {
            let old = Site::new(self.best.lent.clone());
            programs::refit(&mut args.lists, op.lists, &old, &site);
        }
        self.memory.fill_network(&site.lent);
        match check(self.best.op, &site, &args, self.memory, &mut self.rng, None) {
            Some(mut mismatch) if mismatch.number == self.best.number => {
                mismatch.origin = self.best.origin.clone();
                self.best = mismatch;
                true
            }
            _ => false,
        }
    }

    /// One pass over everything that may go; whether anything did.
    fn round(&mut self) -> bool {
        let mut better = self.plain_args();
        if Parts::decode(&self.best.lent).is_some() {
            for count in Count::ALL {
                better |= self.remove_elements(count);
            }
            better |= self.plain_values();
        } else {
            better |= self.cut_slices();
        }
        better && !self.over()
    }

    fn plain_args(&mut self) -> bool {
        let mut better = false;
        let args = self.best.args.clone();
        for sheet in 0..args.lends.len() {
            let lend = args.lends[sheet];
            if lend.words != 0 || lend.leftover != 0 {
                let mut plain = self.best.args.clone();
                plain.lends[sheet] = Lend::default();
                better |= self.attempt(self.best.lent.clone(), plain);
            }
        }
        for bits in [0, 1f64.to_bits()] {
            if self.best.args.bits != 0 && self.best.args.bits != bits {
                let plain = Args { bits, ..self.best.args.clone() };
                better |= self.attempt(self.best.lent.clone(), plain);
            }
        }
        if self.best.args.index != 0 {
            let plain = Args { index: 0, ..self.best.args.clone() };
            better |= self.attempt(self.best.lent.clone(), plain);
        }
        for list in 0..args.lists.len() {
            for place in 0..args.lists[list].len() / 8 {
                let range = 8 * place..8 * place + 8;
                if self.best.args.lists[list][range.clone()].iter().any(|&byte| byte != 0) {
                    let mut plain = self.best.args.clone();
                    plain.lists[list][range].fill(0);
                    better |= self.attempt(self.best.lent.clone(), plain);
                }
            }
        }
        better
    }

    /// Removes elements of one kind from the last on, first many at once.
    fn remove_elements(&mut self, count: Count) -> bool {
        let mut better = false;
        let mut step = elements(&self.best.lent, count);
        while step > 0 {
            let mut end = elements(&self.best.lent, count);
            while end > 0 && !self.over() {
                let start = end.saturating_sub(step);
                let mut args = self.best.args.clone();
                let parts = Parts::decode(&self.best.lent);
                let mut parts = parts.expect("removals keep lengths in step");
                let before = parts.count(count);
                for place in (start..end).rev() {
                    if may_go(&parts, count) {
                        remove(&mut parts, &mut args, self.best.op, count, place);
                    }
                }
                if parts.count(count) < before {
                    better |= self.attempt(parts.encode(), args);
                }
                end = start;
            }
            step /= 2;
        }
        better
    }

    fn plain_values(&mut self) -> bool {
        let mut better = false;
        let parts = Parts::decode(&self.best.lent).expect("removals keep lengths in step");
        for field in Field::ALL {
            let plain: &[f64] = if field == Field::Base { &[100.0] } else { &[0.0, 1.0] };
            for place in 0..parts.fields[field as usize].len() {
                better |=
                    self.plain_reading(plain, |parts| &mut parts.fields[field as usize][place]);
            }
        }
        for place in 0..parts.term_coefficient.len() {
            better |= self.plain_reading(&[0.0, 1.0], |parts| &mut parts.term_coefficient[place]);
        }
        for place in 7..parts.head.len() {
            better |= self.plain_word(|parts| &mut parts.head[place]);
        }
        for wire in 0..parts.wires.len() {
            for place in 0..parts.wires[wire].len() {
                better |= self.plain_word(|parts| &mut parts.wires[wire][place]);
            }
        }
        for place in 0..parts.term_index.len() {
            better |= self.plain_word(|parts| &mut parts.term_index[place]);
        }
        better
    }

    /// Tries plain values for one reading, the plainest first.
    fn plain_reading(&mut self, plain: &[f64], of: impl Fn(&mut Parts) -> &mut f64) -> bool {
        for &plain in plain {
            let mut parts = Parts::decode(&self.best.lent).expect("lengths stay in step");
            let value = of(&mut parts);
            if value.to_bits() == plain.to_bits() {
                return false;
            }
            *value = plain;
            if self.attempt(parts.encode(), self.best.args.clone()) {
                return true;
            }
        }
        false
    }

    fn plain_word(&mut self, of: impl Fn(&mut Parts) -> &mut u32) -> bool {
        let mut parts = Parts::decode(&self.best.lent).expect("lengths stay in step");
        let value = of(&mut parts);
        if *value == 0 {
            return false;
        }
        *value = 0;
        self.attempt(parts.encode(), self.best.args.clone())
    }

    /// For slices whose lengths do not fit their counts.
    fn cut_slices(&mut self) -> bool {
        let mut better = false;
        for slice in 0..4 {
            let mut step = self.best.lent.slices()[slice].len() / 2;
            while step > 0 && !self.over() {
                let mut lent = self.best.lent.clone();
                let bytes = slice_mut(&mut lent, slice);
                if bytes.len() < step {
                    step /= 2;
                    continue;
                }
                let left = bytes.len() - step;
                bytes.truncate(left);
                if self.attempt(lent, self.best.args.clone()) {
                    better = true;
                } else {
                    step /= 2;
                }
            }
            for place in 0..self.best.lent.slices()[slice].len() {
                if self.best.lent.slices()[slice].get(place).map_or(false, |&byte| byte != 0) {
                    let mut lent = self.best.lent.clone();
                    slice_mut(&mut lent, slice)[place] = 0;
                    better |= self.attempt(lent, self.best.args.clone());
                }
            }
        }
        better
    }
}

fn slice_mut(lent: &mut Lent, slice: usize) -> &mut Vec<u8> {
    match slice {
        0 => &mut lent.wiring,
        1 => &mut lent.readings,
        2 => &mut lent.term_index,
        _ => &mut lent.term_coefficient,
    }
}

fn elements(lent: &Lent, count: Count) -> usize {
    Parts::decode(lent).map_or(0, |parts| parts.count(count))
}

/// Whether an element may go: not the last one that others stand at or weigh, so that a
/// smaller case breaks no rule that the first one kept.
fn may_go(parts: &Parts, count: Count) -> bool {
    let weighed = |wire: Wire| parts.wire(wire).iter().any(|&terms| terms > 0);
    let needed = match count {
        Count::Buses => [Count::Branches, Count::Generators, Count::References]
            .iter()
            .any(|&standing| parts.count(standing) > 0),
        Count::Branches => weighed(Wire::FlowTerms),
        Count::Generators => weighed(Wire::GenerationTerms),
        _ => false,
    };
    parts.count(count) > usize::from(needed)
}

/// Takes one element out, with whatever counts it or points past it.
fn remove(parts: &mut Parts, args: &mut Args, op: usize, count: Count, place: usize) {
    for (list, &(_, length)) in args.lists.iter_mut().zip(OPS[op].lists) {
        if length.is_solution() {
            cut_solution(parts, list, count, place);
        }
    }
    match count {
        Count::Segments => leave_owner(parts.wire_mut(Wire::Segments), place),
        Count::Terms => leave_row(parts, place),
        Count::Generators => {
            let first = sum_before(parts.wire(Wire::Segments), place);
            let own = parts.wire(Wire::Segments)[place] as usize;
            let end = first.saturating_add(own).min(parts.count(Count::Segments));
            for segment in (first.min(end)..end).rev() {
                take_out(parts, Count::Segments, segment);
            }
        }
        Count::Rows => {
            let flows = sum_before(parts.wire(Wire::FlowTerms), place);
            let first = flows.saturating_add(sum_before(parts.wire(Wire::GenerationTerms), place));
            let own = parts.wire(Wire::FlowTerms)[place] as usize
                + parts.wire(Wire::GenerationTerms)[place] as usize;
            let end = first.saturating_add(own).min(parts.count(Count::Terms));
            for term in (first.min(end)..end).rev() {
                take_out(parts, Count::Terms, term);
            }
        }
        _ => {}
    }
    close_up(parts, count, place as u32);
    take_out(parts, count, place);
    for (list, &(_, length)) in args.lists.iter_mut().zip(OPS[op].lists) {
        if length == Length::Of(count) && list.len() >= 8 * place + 8 {
            list.drain(8 * place..8 * place + 8);
        }
    }
    if OPS[op].index == Some(count) && args.index > place {
        args.index -= 1;
    }
}

/// Takes the words of one element out of a solution sheet, which may be too short or too
/// long and then stays so.
fn cut_solution(parts: &Parts, sheet: &mut Vec<u8>, count: Count, place: usize) {
    let segments = parts.wire(Wire::Segments);
    let epigraph = |generator: usize| segments[..generator].iter().filter(|&&s| s > 0).count();
    let counts = Count::ALL.map(|count| parts.count(count));
    let blocks = Blocks::new(&counts, epigraph(segments.len()));
    let own = |block: &Block| block.length() == Some(count);
    let mut gone: Vec<usize> = Block::ALL
        .iter()
        .filter(|block| own(block))
        .map(|&block| blocks.range(block).start + place)
        .collect();
    if count == Count::Generators && segments[place] > 0 {
        let duals = blocks.range(Block::SegmentDuals);
        let first = duals.start + sum_before(segments, place).min(duals.len());
        gone.push(blocks.range(Block::Epigraphs).start + epigraph(place));
        gone.extend((first..duals.end).take(segments[place] as usize));
    }
    if count == Count::Segments {
        let owner = (0..segments.len()).find(|&j| place < sum_before(segments, j + 1));
        if let Some(generator) = owner.filter(|&generator| segments[generator] == 1) {
            gone.push(blocks.range(Block::Epigraphs).start + epigraph(generator));
        }
    }
    gone.sort_unstable();
    for word in gone.into_iter().rev() {
        if sheet.len() >= 8 * word + 8 {
            sheet.drain(8 * word..8 * word + 8);
        }
    }
}

/// Shortens every list of this count by one place, and the count itself.
fn take_out(parts: &mut Parts, count: Count, place: usize) {
    parts.head[count as usize] -= 1;
    for wire in Wire::ALL.iter().filter(|wire| wire.length() == count) {
        parts.wire_mut(*wire).remove(place);
    }
    for field in Field::ALL.iter().filter(|field| field.length() == Some(count)) {
        parts.field_mut(*field).remove(place);
    }
    if count == Count::Terms {
        parts.term_index.remove(place);
        parts.term_coefficient.remove(place);
    }
}

/// Indexes past a removed element move down by one; those at it go to the first.
fn close_up(parts: &mut Parts, count: Count, place: u32) {
    let down = |index: &mut u32| {
        if *index == place {
            *index = 0;
        } else if *index > place {
            *index -= 1;
        }
    };
    match count {
        Count::Buses => {
            for wire in [Wire::BrFrom, Wire::BrTo, Wire::GenBus, Wire::References] {
                parts.wire_mut(wire).iter_mut().for_each(down);
            }
        }
        Count::Branches | Count::Generators => {
            for term in 0..parts.term_index.len() {
                if owner(parts, term).map_or(false, |(_, kind)| kind == count) {
                    down(&mut parts.term_index[term]);
                }
            }
        }
        _ => {}
    }
}

fn sum_before(list: &[u32], place: usize) -> usize {
    list[..place].iter().fold(0, |sum: usize, &own| sum.saturating_add(own as usize))
}

/// The generator whose segment goes has one fewer.
fn leave_owner(list: &mut [u32], place: usize) {
    let mut end = 0usize;
    for own in list {
        end = end.saturating_add(*own as usize);
        if place < end {
            *own -= 1;
            return;
        }
    }
}

/// A term's row, and whether it weighs a branch or a generator.
fn owner(parts: &Parts, term: usize) -> Option<(usize, Count)> {
    let mut end = 0usize;
    for row in 0..parts.wire(Wire::FlowTerms).len() {
        end = end.saturating_add(parts.wire(Wire::FlowTerms)[row] as usize);
        if term < end {
            return Some((row, Count::Branches));
        }
        end = end.saturating_add(parts.wire(Wire::GenerationTerms)[row] as usize);
        if term < end {
            return Some((row, Count::Generators));
        }
    }
    None
}

fn leave_row(parts: &mut Parts, term: usize) {
    if let Some((row, kind)) = owner(parts, term) {
        let wire = if kind == Count::Branches { Wire::FlowTerms } else { Wire::GenerationTerms };
        parts.wire_mut(wire)[row] -= 1;
    }
}
