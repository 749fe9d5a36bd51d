//! Tells what a network and a call cover, for the table at the end of a run.

use crate::calls::{Args, Expected, Front, Lend, Length, Op, Site, OPS};
use crate::generate::{above, below};
use crate::paper::{
    self, tolerance, within, word, Count, Field, Wire, ALLOW_SHED, READING_LIMIT, SHEET_LIMIT,
};
use crate::program_marks::mark_program;
use crate::report::{Coverage, Mark};
use crate::states::{mark_outputs, mark_solution};

/// What is special about a call.
pub fn mark_call(
    place: usize,
    site: &Site,
    args: &Args,
    expected: &Expected,
    cover: &mut Coverage,
) {
    let op = &OPS[place];
    cover.hit_answer(place, expected.number);
    for &number in op.numbers {
        if number > expected.number && expected.number > 0 && expected.held.has(number) {
            cover.hit_over(place, expected.number, number);
        }
    }
    mark_sheets(op, args, expected, cover);
    if let (Some(count), Some(shape)) = (op.index, &site.shape) {
        mark_index(args.index, shape.count(count), expected.number, cover);
    }
    if op.solved() {
        mark_solution(place, site, &args.lists[0], expected.number, cover);
        mark_outputs(place, site, args, expected, cover);
    }
    if op.programmed() {
        mark_program(place, site, args, expected, cover);
    }
    match op.name {
        "shed_cap" if expected.number == 0 => mark_shed_cap(site, args.index, cover),
        "row_kind" if expected.number == 0 => mark_row_kind(site, args.index, cover),
        "generator_cost" => mark_cost(site, args, expected.number, cover),
        "evaluate" => mark_evaluate(op, site, args, expected.number, cover),
        "evaluate_terms" if expected.number == 1 => mark_records(site, cover),
        "susceptance_coo" if expected.number == 0 => mark_list(site, &expected.fronts, cover),
        _ => {}
    }
}

fn mark_index(index: usize, length: usize, number: u8, cover: &mut Coverage) {
    cover.hit_if(Mark::IndexFirst, number == 0 && index == 0);
    cover.hit_if(Mark::IndexLast, number == 0 && index > 0 && index + 1 == length);
    cover.hit_if(Mark::IndexAtLength, number == 5 && index == length);
    cover.hit_if(Mark::IndexGreatest, number == 5 && index == usize::MAX);
    let past = index >> 32 != 0 && (index & 0xFFFF_FFFF) < length;
    cover.hit_if(Mark::IndexPast32, number == 5 && past);
}

fn mark_sheets(op: &Op, args: &Args, expected: &Expected, cover: &mut Coverage) {
    let lends = &args.lends;
    if expected.number == 0 && !lends.is_empty() {
        let filled = expected.fronts.iter().all(|front| front.len() > 0);
        cover.hit_if(Mark::SheetEmptyResult, expected.sheets.iter().all(|&bytes| bytes == 0));
        if filled {
            let exact = |lend: &Lend| lend.words == 0 && lend.leftover == 0;
            cover.hit_if(Mark::SheetExact, lends.iter().all(exact));
            cover.hit_if(Mark::SheetLonger, lends.iter().any(|lend| lend.words > 0));
            cover.hit_if(Mark::SheetLeftover, lends.iter().any(|lend| lend.leftover > 0));
        }
    }
    if expected.number == 7 {
        let cut = |lend: &Lend, leftover: bool| lend.words == -1 && (lend.leftover > 0) == leftover;
        cover.hit_if(Mark::SheetOneShort, lends.iter().any(|lend| cut(lend, false)));
        cover.hit_if(Mark::SheetShortLeftover, lends.iter().any(|lend| cut(lend, true)));
        cover.hit_if(Mark::SheetEmpty, expected.sheets.contains(&0));
        if op.sheets.len() == 3 {
            let short = |sheet: usize| lends[sheet].words < 0;
            let alone = [Mark::RowsShortAlone, Mark::ColumnsShortAlone, Mark::ValuesShortAlone];
            for (sheet, mark) in alone.into_iter().enumerate() {
                let others = (0..3).any(|other| other != sheet && short(other));
                cover.hit_if(mark, short(sheet) && !others);
            }
        }
    }
}

fn mark_shed_cap(site: &Site, bus: usize, cover: &mut Coverage) {
    if word(&site.lent.wiring, ALLOW_SHED) == 0 {
        cover.hit(Mark::ShedOff);
        return;
    }
    let demand = site.reading(Field::Demand, bus);
    let at = tolerance();
    cover.hit_if(Mark::DemandNegative, demand < 0.0);
    cover.hit_if(Mark::DemandMinusZero, demand.to_bits() == (-0.0f64).to_bits());
    cover.hit_if(Mark::DemandPlusZero, demand.to_bits() == 0);
    cover.hit_if(Mark::DemandBelowTolerance, demand == below(at));
    cover.hit_if(Mark::DemandAtTolerance, demand == at);
    cover.hit_if(Mark::DemandAboveTolerance, demand == above(at));
    cover.hit_if(Mark::DemandAtLimit, demand == READING_LIMIT);
}

fn mark_row_kind(site: &Site, row: usize, cover: &mut Coverage) {
    let mask = site.wire(Wire::RowMasks, row);
    let upper = site.reading(Field::UpperMw, row);
    let lower = site.reading(Field::LowerMw, row);
    match mask {
        0 => cover.hit(Mark::RowNone),
        1 => cover.hit(Mark::RowUpper),
        2 => cover.hit(Mark::RowLower),
        _ if upper == lower => cover.hit(Mark::RowEquality),
        _ => cover.hit(Mark::RowBoth),
    }
    let zeros = upper == 0.0 && lower == 0.0 && upper.to_bits() != lower.to_bits();
    cover.hit_if(Mark::EqualityOfZeros, mask == 3 && zeros);
    let apart = upper.to_bits().wrapping_sub(lower.to_bits());
    cover.hit_if(Mark::BothJustApart, mask == 3 && apart == 1);
    cover.hit_if(Mark::OneSidedEqualSlots, (mask == 1 || mask == 2) && upper == lower);
}

fn mark_cost(site: &Site, args: &Args, number: u8, cover: &mut Coverage) {
    let power = f64::from_bits(args.bits);
    if number == 0 {
        match site.wire(Wire::Segments, args.index) {
            0 => cover.hit(Mark::CostQuadratic),
            1 => cover.hit(Mark::CostOneSegment),
            _ => cover.hit(Mark::CostPiecewise),
        }
        cover.hit_if(Mark::PowerAtPlus, power == READING_LIMIT);
        cover.hit_if(Mark::PowerAtMinus, power == -READING_LIMIT);
    }
    if number == 3 {
        cover.hit_if(Mark::PowerJustAbove, power.abs() == above(READING_LIMIT));
        cover.hit_if(Mark::PowerNan, power.is_nan());
        cover.hit_if(Mark::PowerInfinite, power.is_infinite());
    }
}

fn mark_evaluate(op: &Op, site: &Site, args: &Args, number: u8, cover: &mut Coverage) {
    let marks = [
        [
            Mark::FlowAtLimit,
            Mark::FlowJustAbove,
            Mark::FlowNan,
            Mark::FlowInfinite,
            Mark::FlowShort,
            Mark::FlowLong,
            Mark::FlowRagged,
        ],
        [
            Mark::DispatchAtLimit,
            Mark::DispatchJustAbove,
            Mark::DispatchNan,
            Mark::DispatchInfinite,
            Mark::DispatchShort,
            Mark::DispatchLong,
            Mark::DispatchRagged,
        ],
    ];
    for ((list, &(_, length)), marks) in args.lists.iter().zip(op.lists).zip(marks) {
        let [at, just_above, nan, infinite, short, long, ragged] = marks;
        let values = paper::doubles(list);
        let any = |test: fn(f64) -> bool| values.iter().any(|&x| test(x));
        cover.hit_if(at, number == 0 && any(|x| x.abs() == SHEET_LIMIT));
        cover.hit_if(just_above, number == 3 && any(|x| x.abs() == above(SHEET_LIMIT)));
        cover.hit_if(nan, number == 3 && any(f64::is_nan));
        cover.hit_if(infinite, number == 3 && any(f64::is_infinite));
        let length = match length {
            Length::Of(count) => site.count(count),
            _ => None,
        };
        if let Some(length) = length {
            cover.hit_if(short, number == 1 && list.len() + 8 == 8 * length);
            cover.hit_if(long, number == 1 && list.len() == 8 * length + 8);
            cover.hit_if(ragged, number == 1 && list.len() % 8 != 0);
        }
    }
    if number == 0 {
        let flows = site.wire(Wire::FlowTerms, args.index) > 0;
        let generation = site.wire(Wire::GenerationTerms, args.index) > 0;
        cover.hit(match (flows, generation) {
            (false, false) => Mark::RowWithoutTerms,
            (true, false) => Mark::RowOfFlows,
            (false, true) => Mark::RowOfGeneration,
            (true, true) => Mark::RowOfBoth,
        });
    }
}

fn mark_records(site: &Site, cover: &mut Coverage) {
    let length = paper::records(&site.lent).len();
    let terms = paper::written_counts(&site.lent).map(|counts| counts[6]);
    let off = |by: u64| terms.map_or(false, |terms| length as u64 == 12 * terms.wrapping_add(by));
    cover.hit_if(Mark::RecordShort, off(u64::MAX));
    cover.hit_if(Mark::RecordLong, off(1));
    cover.hit_if(Mark::RecordRagged, length % 12 != 0);
}

fn mark_list(site: &Site, fronts: &[Front], cover: &mut Coverage) {
    if let Some(Front::F64(values)) = fronts.get(2) {
        cover.hit_if(Mark::ListEmpty, values.is_empty());
        cover.hit_if(Mark::ListCancelled, values.contains(&0.0));
        let four_each = 4 * site.shape().count(Count::Branches);
        cover.hit_if(Mark::ListSummed, !values.is_empty() && values.len() < four_each);
    }
}

/// What is special about a network, accepted or refused for a reading.
pub fn mark_network(site: &Site, cover: &mut Coverage) {
    let readings = paper::doubles(&site.lent.readings);
    let coefficients = paper::doubles(&site.lent.term_coefficient);
    match site.held.lowest() {
        0 => mark_good(site, &readings, &coefficients, cover),
        3 => mark_refused(site, &readings, &coefficients, cover),
        _ => {}
    }
}

fn mark_good(site: &Site, readings: &[f64], coefficients: &[f64], cover: &mut Coverage) {
    let shape = site.shape();
    for count in Count::ALL {
        cover.hit_count(count, shape.count(count));
    }
    let near = [below(tolerance()), tolerance(), above(tolerance())];
    let any = |list: &[f64], test: &dyn Fn(f64) -> bool| list.iter().any(|&x| test(x));
    let rest = &readings[1..];
    cover.hit_if(Mark::BaseAtLow, readings[0] == paper::BASE_LOW);
    cover.hit_if(Mark::BaseAtHigh, readings[0] == paper::BASE_HIGH);
    cover.hit_if(Mark::ReadingAtPlus, rest.contains(&READING_LIMIT));
    cover.hit_if(Mark::ReadingAtMinus, rest.contains(&-READING_LIMIT));
    cover.hit_if(Mark::CoefficientAtPlus, coefficients.contains(&READING_LIMIT));
    cover.hit_if(Mark::CoefficientAtMinus, coefficients.contains(&-READING_LIMIT));
    cover.hit_if(Mark::SubnormalReading, any(rest, &|x| x != 0.0 && !x.is_normal()));
    cover.hit_if(Mark::NegativeZeroReading, any(rest, &|x| x == 0.0 && x.is_sign_negative()));
    cover.hit_if(Mark::ReadingNearTolerance, any(rest, &|x| near.contains(&x)));
    mark_wiring(site, cover);
}

fn mark_wiring(site: &Site, cover: &mut Coverage) {
    let shape = site.shape();
    let branches = shape.count(Count::Branches);
    let mut ends = Vec::with_capacity(branches);
    let (mut open, mut vanishing) = (false, false);
    for e in 0..branches {
        let (i, j) = (site.wire(Wire::BrFrom, e), site.wire(Wire::BrTo, e));
        ends.push((i.min(j), i.max(j)));
        let (b, sw) = (site.reading(Field::B, e), site.reading(Field::Sw, e));
        open |= b == 0.0 || sw == 0.0;
        vanishing |= b != 0.0 && sw != 0.0 && -b * sw == 0.0;
    }
    cover.hit_if(Mark::OpenBranch, open);
    cover.hit_if(Mark::VanishingBranch, vanishing);
    cover.hit_if(Mark::SelfLoop, ends.iter().any(|(i, j)| i == j));
    ends.sort_unstable();
    cover.hit_if(Mark::ParallelBranches, ends.windows(2).any(|pair| pair[0] == pair[1]));
    let mut references: Vec<u32> =
        (0..shape.count(Count::References)).map(|r| site.wire(Wire::References, r)).collect();
    references.sort_unstable();
    cover.hit_if(Mark::RepeatedReference, references.windows(2).any(|pair| pair[0] == pair[1]));
    let generators = shape.count(Count::Generators);
    let piecewise = (0..generators).any(|j| site.wire(Wire::Segments, j) > 0);
    cover.hit_if(Mark::PiecewiseCost, piecewise);
}

fn mark_refused(site: &Site, readings: &[f64], coefficients: &[f64], cover: &mut Coverage) {
    let rest = &readings[1..];
    let just = above(READING_LIMIT);
    cover.hit_if(Mark::BaseBelowLow, readings[0] == below(paper::BASE_LOW));
    cover.hit_if(Mark::BaseAboveHigh, readings[0] == above(paper::BASE_HIGH));
    cover.hit_if(Mark::ReadingAbovePlus, rest.contains(&just));
    cover.hit_if(Mark::ReadingBelowMinus, rest.contains(&-just));
    cover.hit_if(Mark::CoefficientAbovePlus, coefficients.contains(&just));
    cover.hit_if(Mark::CoefficientBelowMinus, coefficients.contains(&-just));
    let quiet = |x: &f64| x.to_bits() & 0x0008_0000_0000_0000 != 0;
    let nans = || readings.iter().filter(|x| x.is_nan());
    cover.hit_if(Mark::QuietNan, nans().any(quiet));
    cover.hit_if(Mark::SignallingNan, nans().any(|x| !quiet(x)));
    cover.hit_if(Mark::NegativeNan, nans().any(|x| x.to_bits() >> 63 == 1));
    cover.hit_if(Mark::PlusInfinity, readings.contains(&f64::INFINITY));
    cover.hit_if(Mark::MinusInfinity, readings.contains(&f64::NEG_INFINITY));
    let rows = site.shape().count(Count::Rows);
    let absent = |row: usize| {
        let mask = site.wire(Wire::RowMasks, row);
        let broken = |field| !within(site.reading(field, row), READING_LIMIT);
        (mask & 1 == 0 && broken(Field::UpperMw)) || (mask & 2 == 0 && broken(Field::LowerMw))
    };
    cover.hit_if(Mark::AbsentLimitRefused, (0..rows).any(absent));
}
