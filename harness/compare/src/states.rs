//! Tells which states of snapping a solution sheet meets, and which side of each threshold.

use crate::calls::{Args, Expected, Lend, Length, Site, OPS};
use crate::generate::{above, below};
use crate::paper::{self, tolerance, within, word, Block, Count, Field, Wire, SHEET_LIMIT};
use crate::report::{Coverage, SheetMark};

/// Whether marks under this title say something about a call.
pub fn matters(op: &str, title: &str) -> bool {
    match title {
        "buses" | "upper angle limits" | "lower angle limits" | "segments" => {
            op == "snap" || op == "kkt_triplets"
        }
        "linear rows" | "upper row limits" | "lower row limits" => {
            op != "snap" && op != "nodal_marginal_values"
        }
        "lists" | "exempt words" => op == "kkt_triplets",
        _ => true,
    }
}

/// Just below, at and just above the tolerance.
fn sides(x: f64) -> [bool; 3] {
    let at = tolerance();
    [x == below(at), x == at, x == above(at)]
}

/// Marks that one call's sheet meets, each counted once.
struct Met<'a> {
    op: usize,
    cover: &'a mut Coverage,
    met: u128,
}

impl Met<'_> {
    fn when(&mut self, mark: SheetMark, holds: bool) {
        self.met |= u128::from(holds) << mark as u32;
    }

    /// A limit with its dual, by its slack: marks in the order of the report.
    fn limit(&mut self, marks: &[SheetMark; 9], slack: f64, is_slack: bool, dual: f64) {
        self.when(marks[0], is_slack);
        self.when(marks[1], !is_slack && dual <= 0.0);
        self.when(marks[2], !is_slack && dual > 0.0);
        for (&mark, side) in marks[3..6].iter().zip(sides(slack)) {
            self.when(mark, side && dual > 0.0);
        }
        let zero = !is_slack && dual == 0.0;
        self.when(marks[6], zero && dual.is_sign_positive());
        self.when(marks[7], zero && dual.is_sign_negative());
        self.when(marks[8], !is_slack && dual < 0.0);
    }

    fn count(self, marks: &[SheetMark]) {
        for &mark in marks {
            self.cover.hit_sheet(self.op, mark, self.met >> mark as u32 & 1 == 1);
        }
    }
}

const ANGMAX: [SheetMark; 9] = [
    SheetMark::AngmaxSlack,
    SheetMark::AngmaxNotPositive,
    SheetMark::AngmaxKept,
    SheetMark::AngmaxJustBelow,
    SheetMark::AngmaxAt,
    SheetMark::AngmaxJustAbove,
    SheetMark::AngmaxPlusZero,
    SheetMark::AngmaxMinusZero,
    SheetMark::AngmaxNegative,
];
const ANGMIN: [SheetMark; 9] = [
    SheetMark::AngminSlack,
    SheetMark::AngminNotPositive,
    SheetMark::AngminKept,
    SheetMark::AngminJustBelow,
    SheetMark::AngminAt,
    SheetMark::AngminJustAbove,
    SheetMark::AngminPlusZero,
    SheetMark::AngminMinusZero,
    SheetMark::AngminNegative,
];
const SEGMENT: [SheetMark; 9] = [
    SheetMark::SegmentSlack,
    SheetMark::SegmentNotPositive,
    SheetMark::SegmentKept,
    SheetMark::SegmentJustBelow,
    SheetMark::SegmentAt,
    SheetMark::SegmentJustAbove,
    SheetMark::SegmentPlusZero,
    SheetMark::SegmentMinusZero,
    SheetMark::SegmentNegative,
];
const UPPER: [SheetMark; 9] = [
    SheetMark::UpperSlack,
    SheetMark::UpperNotPositive,
    SheetMark::UpperKept,
    SheetMark::UpperJustBelow,
    SheetMark::UpperAt,
    SheetMark::UpperJustAbove,
    SheetMark::UpperPlusZero,
    SheetMark::UpperMinusZero,
    SheetMark::UpperNegative,
];
const LOWER: [SheetMark; 9] = [
    SheetMark::LowerSlack,
    SheetMark::LowerNotPositive,
    SheetMark::LowerKept,
    SheetMark::LowerJustBelow,
    SheetMark::LowerAt,
    SheetMark::LowerJustAbove,
    SheetMark::LowerPlusZero,
    SheetMark::LowerMinusZero,
    SheetMark::LowerNegative,
];
const BUSES: [SheetMark; 14] = [
    SheetMark::BusFixed,
    SheetMark::BusAtZero,
    SheetMark::BusAtCap,
    SheetMark::BusBetween,
    SheetMark::BusFixedFolds,
    SheetMark::CapJustBelow,
    SheetMark::CapAt,
    SheetMark::CapJustAbove,
    SheetMark::ShedJustBelow,
    SheetMark::ShedAt,
    SheetMark::ShedJustAbove,
    SheetMark::RoomJustBelow,
    SheetMark::RoomAt,
    SheetMark::RoomJustAbove,
];
const ROWS: [SheetMark; 6] = [
    SheetMark::LinearNone,
    SheetMark::LinearUpper,
    SheetMark::LinearLower,
    SheetMark::LinearBoth,
    SheetMark::LinearEquality,
    SheetMark::LinearEqualityDual,
];

/// An accepted sheet by its words.
struct Sheet<'a> {
    site: &'a Site,
    words: &'a [f64],
}

impl Sheet<'_> {
    fn block(&self, block: Block) -> &[f64] {
        &self.words[self.site.shape().blocks.range(block)]
    }

    fn buses(&self, met: &mut Met) {
        let at = tolerance();
        for bus in 0..self.site.shape().count(Count::Buses) {
            let cap = self.site.oracle().shed_cap(bus);
            let shed = self.block(Block::Psh)[bus];
            let (fixed, zero, full) = (cap < at, shed < at, cap - shed < at);
            met.when(SheetMark::BusFixed, fixed);
            met.when(SheetMark::BusAtZero, !fixed && zero);
            met.when(SheetMark::BusAtCap, !fixed && !zero && full);
            met.when(SheetMark::BusBetween, !fixed && !zero && !full);
            met.when(SheetMark::BusFixedFolds, fixed && self.block(Block::MuUb)[bus] != 0.0);
            for (&mark, side) in BUSES[5..8].iter().zip(sides(cap)) {
                met.when(mark, side);
            }
            for (&mark, side) in BUSES[8..11].iter().zip(sides(shed)) {
                met.when(mark, side && !fixed);
            }
            for (&mark, side) in BUSES[11..14].iter().zip(sides(cap - shed)) {
                met.when(mark, side && !fixed && !zero);
            }
        }
    }

    fn angles(&self, met: &mut Met) {
        let at = tolerance();
        let va = self.block(Block::Va);
        for e in 0..self.site.shape().count(Count::Branches) {
            let (i, j) = (self.site.wire(Wire::BrFrom, e), self.site.wire(Wire::BrTo, e));
            let apart = va[i as usize] - va[j as usize];
            let upper = self.site.reading(Field::Angmax, e) - apart;
            let lower = apart - self.site.reading(Field::Angmin, e);
            met.limit(&ANGMAX, upper, upper > at, self.block(Block::GammaUb)[e]);
            met.limit(&ANGMIN, lower, lower > at, self.block(Block::GammaLb)[e]);
        }
    }

    fn segments(&self, met: &mut Met) {
        let (mut segment, mut epigraph) = (0, 0);
        for generator in 0..self.site.shape().count(Count::Generators) {
            let own = self.site.wire(Wire::Segments, generator) as usize;
            for segment in segment..segment + own {
                let line =
                    self.site.reading(Field::Slopes, segment) * self.block(Block::Pg)[generator];
                let intercept = self.site.reading(Field::Intercepts, segment);
                let slack = self.block(Block::Epigraphs)[epigraph] - line - intercept;
                let dual = self.block(Block::SegmentDuals)[segment];
                met.limit(&SEGMENT, slack, slack > tolerance(), dual);
            }
            segment += own;
            epigraph += usize::from(own > 0);
        }
    }

    fn rows(&self, met: &mut Met) {
        let at = tolerance();
        let base = self.site.reading(Field::Base, 0);
        for row in 0..self.site.shape().count(Count::Rows) {
            let upper = self.site.reading(Field::UpperMw, row);
            let lower = self.site.reading(Field::LowerMw, row);
            let mask = self.site.wire(Wire::RowMasks, row);
            let equality = mask == 3 && upper == lower;
            let kind = if equality { 4 } else { mask as usize };
            met.when(ROWS[kind], true);
            let dual = self.block(Block::LinearDuals)[row];
            let flows = self.site.wire(Wire::FlowTerms, row) > 0;
            met.when(SheetMark::LinearEqualityDual, equality && flows && dual != 0.0);
            if equality || mask == 0 {
                continue;
            }
            let (f, pg) = (self.block(Block::F), self.block(Block::Pg));
            let value = self.site.oracle().evaluate(row, f, pg);
            let above = upper / base - value;
            let below = value - lower / base;
            if mask & 1 != 0 {
                met.limit(&UPPER, above, !(above <= at), dual);
            }
            if mask & 2 != 0 {
                met.limit(&LOWER, below, !(below <= at), -dual);
            }
        }
    }
}

fn mark_network(op: usize, site: &Site, cover: &mut Coverage) {
    let shape = site.shape();
    let ends = |e: usize| (site.wire(Wire::BrFrom, e), site.wire(Wire::BrTo, e));
    let mut sorted: Vec<(u32, u32)> =
        (0..shape.count(Count::Branches)).map(ends).map(|(i, j)| (i.min(j), i.max(j))).collect();
    cover.hit_sheet(op, SheetMark::SheetSelfLoop, sorted.iter().any(|(i, j)| i == j));
    sorted.sort_unstable();
    let parallel = sorted.windows(2).any(|pair| pair[0] == pair[1]);
    cover.hit_sheet(op, SheetMark::SheetParallel, parallel);
    let references: Vec<u32> =
        shape.wire_range(Wire::References).map(|place| word(&site.lent.wiring, place)).collect();
    let twice = |place: usize| references[..place].contains(&references[place]);
    let repeated = (0..references.len()).any(twice);
    cover.hit_sheet(op, SheetMark::SheetRepeatedReference, repeated);
    cover.hit_sheet(op, SheetMark::SheetSeveralReferences, references.len() > 1);
    let full = |count: &Count| shape.count(*count) == count.limit();
    cover.hit_sheet(op, SheetMark::SheetLargest, Count::ALL.iter().all(full));
    cover.hit_sheet(op, SheetMark::SheetNoBus, shape.count(Count::Buses) == 0);
}

fn mark_exempt(op: usize, site: &Site, words: &[f64], cover: &mut Coverage) {
    let blocks = &site.shape().blocks;
    let values = &words[blocks.range(Block::LinearValues)];
    let objective = &words[blocks.range(Block::Objective)];
    let beyond = |x: &f64| x.is_finite() && !within(*x, SHEET_LIMIT);
    let any = |list: &[f64], test: &dyn Fn(&f64) -> bool| list.iter().any(test);
    let tests: [&dyn Fn(&f64) -> bool; 3] = [&|x| x.is_nan(), &|x| x.is_infinite(), &beyond];
    let marks = [
        (values, [SheetMark::ExemptNan, SheetMark::ExemptInfinite, SheetMark::ExemptAbove]),
        (
            objective,
            [
                SheetMark::ExemptObjectiveNan,
                SheetMark::ExemptObjectiveInfinite,
                SheetMark::ExemptObjectiveAbove,
            ],
        ),
    ];
    for (list, marks) in marks {
        for (mark, test) in marks.into_iter().zip(tests) {
            cover.hit_sheet(op, mark, any(list, test));
        }
    }
}

/// A sheet refused by itself: the network is accepted.
fn mark_refused(op: usize, site: &Site, bytes: &[u8], number: u8, cover: &mut Coverage) {
    let words = paper::doubles(bytes);
    let blocks = &site.shape().blocks;
    if number == 1 {
        let due = 8 * blocks.length();
        cover.hit_sheet(op, SheetMark::SolutionShort, bytes.len() + 8 == due);
        cover.hit_sheet(op, SheetMark::SolutionLong, bytes.len() == due + 8);
        cover.hit_sheet(op, SheetMark::SolutionRagged, bytes.len() % 8 != 0);
        cover.hit_sheet(op, SheetMark::SolutionEmpty, bytes.is_empty());
    }
    if number == 3 {
        let looked_at = &words[..OPS[op].lists[0].1.looked_at(blocks)];
        let just = above(SHEET_LIMIT);
        cover.hit_sheet(op, SheetMark::WordAbovePlus, looked_at.contains(&just));
        cover.hit_sheet(op, SheetMark::WordBelowMinus, looked_at.contains(&-just));
        cover.hit_sheet(op, SheetMark::WordNan, looked_at.iter().any(|x| x.is_nan()));
        cover.hit_sheet(op, SheetMark::WordInfinite, looked_at.iter().any(|x| x.is_infinite()));
        for block in Block::ALL {
            let mut range = blocks.range(block);
            let broken = |place| place < looked_at.len() && !within(words[place], SHEET_LIMIT);
            if range.any(broken) {
                cover.hit_block(op, block);
            }
        }
    }
}

/// What is special about a call on a solution sheet.
pub fn mark_solution(op: usize, site: &Site, bytes: &[u8], number: u8, cover: &mut Coverage) {
    if site.held.lowest() > 0 {
        return;
    }
    if number > 0 {
        mark_refused(op, site, bytes, number, cover);
        return;
    }
    mark_network(op, site, cover);
    let words = paper::doubles(bytes);
    let looked_at = &words[..OPS[op].lists[0].1.looked_at(&site.shape().blocks)];
    cover.hit_sheet(op, SheetMark::WordAtPlus, looked_at.contains(&SHEET_LIMIT));
    cover.hit_sheet(op, SheetMark::WordAtMinus, looked_at.contains(&-SHEET_LIMIT));
    if OPS[op].lists[0].1 == Length::SolutionFront {
        mark_exempt(op, site, &words, cover);
    }
    let sheet = Sheet { site, words: &words };
    let name = OPS[op].name;
    let mut group = |title: &str, walk: &dyn Fn(&mut Met), marks: &[&[SheetMark]]| {
        if matters(name, title) {
            let mut met = Met { op, cover: &mut *cover, met: 0 };
            walk(&mut met);
            met.count(&marks.concat());
        }
    };
    group("buses", &|met| sheet.buses(met), &[&BUSES]);
    group("upper angle limits", &|met| sheet.angles(met), &[&ANGMAX, &ANGMIN]);
    group("segments", &|met| sheet.segments(met), &[&SEGMENT]);
    group("linear rows", &|met| sheet.rows(met), &[&ROWS, &UPPER, &LOWER]);
}

/// How much was lent for the outputs of a call on a solution sheet.
pub fn mark_outputs(
    op: usize,
    site: &Site,
    args: &Args,
    expected: &Expected,
    cover: &mut Coverage,
) {
    let lends = &args.lends;
    let accepted = site.held.lowest() == 0;
    let any = |test: &dyn Fn(&Lend) -> bool| lends.iter().any(test);
    if expected.number == 0 && expected.fronts.iter().all(|front| front.len() > 0) {
        let exact = lends.iter().all(|lend| lend.words == 0 && lend.leftover == 0);
        cover.hit_sheet(op, SheetMark::OutExact, exact);
        cover.hit_sheet(op, SheetMark::OutLonger, any(&|lend| lend.words > 0));
        cover.hit_sheet(op, SheetMark::OutLeftover, any(&|lend| lend.leftover > 0));
    }
    if lends.len() == 3 && (expected.number == 1 || expected.number == 3) {
        let room = args.roomy && lends.iter().all(|lend| lend.words >= 0);
        cover.hit_sheet(op, SheetMark::OutRoomy, accepted && room);
    }
    if expected.number == 7 {
        let short = |leftover: bool| {
            any(&|lend: &Lend| lend.words == -1 && (lend.leftover > 0) == leftover)
        };
        cover.hit_sheet(op, SheetMark::OutOneShort, short(false));
        cover.hit_sheet(op, SheetMark::OutShortLeftover, short(true));
        cover.hit_sheet(op, SheetMark::OutEmpty, expected.sheets.contains(&0));
        let alone =
            [SheetMark::OutRowsShort, SheetMark::OutColumnsShort, SheetMark::OutValuesShort];
        for (sheet, mark) in alone.into_iter().enumerate().take(lends.len()) {
            let only = |place: usize| (lends[place].words < 0) == (place == sheet);
            cover.hit_sheet(op, mark, lends.len() == 3 && (0..3).all(only));
        }
    }
}
