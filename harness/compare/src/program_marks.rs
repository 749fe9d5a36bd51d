//! Tells which programs the calls on them have met, which words and which room.

use crate::calls::{Args, Expected, Front, Op, Site, OPS};
use crate::generate::above;
use crate::paper::{
    doubles, tolerance, within, word, Count, Field, Wire, ALLOW_SHED, OBJECTIVE, READING_LIMIT,
};
use crate::programs::OUTPUTS;
use crate::report::{marks, Coverage};

marks! {
    /// Things that a run must have met in each call on the program that they matter to.
    PROGRAM_MARKS of ProgramMark:
    "programs" {
        NoBus => "no bus",
        Largest => "all counts at their limits",
        SelfLoop => "branch from a bus to itself",
        RepeatedReference => "reference listed twice",
        SheddingOff => "shedding off, demand above 0: no shed column",
        ShedColumn => "demand above 0: a shed column",
        ShedSmall => "demand 10^-7: a shed column",
        ShedAtTolerance => "demand at the tolerance: a shed column",
        ShedSubnormal => "demand subnormal, above 0: a shed column",
        DemandZero => "demand +0 or -0: no shed column",
        DemandNegative => "demand negative: no shed column",
        NoShedColumn => "shedding on, no shed column",
        EveryBusSheds => "several buses, a shed column each",
        ThermalOn => "thermal limits, all on",
        ThermalOff => "thermal limits, all off",
        ThermalMixed => "thermal limits, on and off",
        GeneratorOn => "generator limits, all on",
        GeneratorOff => "generator limits, all off",
        GeneratorMixed => "generator limits, on and off",
        AngleOn => "angle limits, all on",
        AngleOff => "angle limits, all off",
        AngleMixed => "angle limits, on and off",
        OneSegment => "piecewise generator with one segment",
        Segments => "piecewise generator with several segments",
        QuadraticBesides => "piecewise generator beside one that isn't",
        RowNone => "linear row without limits",
        RowUpper => "linear row with an upper limit",
        RowLower => "linear row with a lower limit",
        RowBoth => "linear row with both limits",
        RowEquality => "linear row with equal limits",
        RowEqualityOfZeros => "linear row with limits -0 and +0",
        RowWithoutTerms => "linear row with limits but no terms",
    }
    "entries of the program" {
        CqZero => "cq zero: dropped",
        ClZero => "cl zero: kept in q",
        BranchOpen => "b times sw zero: dropped",
        SwZero => "sw zero, angle limit on: dropped",
        SlopeZero => "slope zero: dropped",
        CoefficientZero => "coefficient zero of a row with limits: dropped",
        NoP => "no triplet of P",
        NoA => "no triplet of A",
        TwoCones => "two cones",
        EqualityCone => "three cones, the last of equalities",
        InequalityCone => "three cones, the last of inequalities",
        FourCones => "four cones",
        EmptyCone => "inequality cone of size 0 listed",
    }
    "room for the program" {
        Exact => "all outputs exactly full: accepted",
        Longer => "all outputs longer than the result: accepted",
        Leftover => "leftover bytes after a result: accepted",
        Roomy => "room for any program: refused for the network",
        PRowsShort => "only P's rows one word short: refused",
        PColumnsShort => "only P's columns one word short: refused",
        PValuesShort => "only P's values one word short: refused",
        ARowsShort => "only A's rows one word short: refused",
        AColumnsShort => "only A's columns one word short: refused",
        AValuesShort => "only A's values one word short: refused",
        QShort => "only q one word short: refused",
        BShort => "only b one word short: refused",
        ConesShort => "only the cones one word short: refused",
        SeveralShort => "several outputs short: refused",
        ShortLeftover => "one word short but for some bytes: refused",
        OutputEmpty => "an output empty, its result not: refused",
    }
    "raw vectors" {
        XAtLimit => "x at +10^12 or -10^12: accepted",
        ZAtLimit => "z at +10^12 or -10^12: accepted",
        ObjectiveAtLimit => "objective at +10^12 or -10^12: accepted",
        XMinusZero => "x with -0: accepted",
        ZMinusZero => "z with -0: accepted",
        ObjectiveMinusZero => "objective -0: accepted",
        XAbove => "x just above 10^12: refused",
        ZAbove => "z just above 10^12: refused",
        ObjectiveAbove => "objective just above 10^12: refused",
        XNan => "x NaN: refused",
        ZNan => "z NaN: refused",
        ObjectiveNan => "objective NaN: refused",
        XInfinite => "x infinite: refused",
        ZInfinite => "z infinite: refused",
        ObjectiveInfinite => "objective infinite: refused",
        XShort => "x one word short: refused",
        ZShort => "z one word short: refused",
        XLong => "x one word long: refused",
        ZLong => "z one word long: refused",
        XRagged => "x not whole words: refused",
        ZRagged => "z not whole words: refused",
        LengthBeforeWiring => "a wrong length, and the wiring broken: refused for the length",
        LengthBeforeReading => "a wrong length, and a reading broken: refused for the length",
        SizeOpen => "a flag, mask or allow_shed broken: 1 or 2",
    }
    "solutions read" {
        Feasibility => "objective word 0",
        GeneratorCost => "objective word 1",
        OtherObjective => "objective word 2",
        SheetExact => "exactly full: accepted",
        SheetLonger => "longer than the result: accepted",
        SheetLeftover => "leftover bytes after the result: accepted",
        SheetOneShort => "one word short: refused",
        SheetShortLeftover => "one word short but for some bytes: refused",
        SheetEmpty => "empty: refused",
    }
}

/// Whether marks under this title say something about a call.
pub fn matters(op: &Op, title: &str) -> bool {
    match title {
        "programs" => true,
        "raw vectors" | "solutions read" => !op.lists.is_empty(),
        _ => op.sheets.len() == OUTPUTS,
    }
}

/// Marks that one call meets, each counted once.
struct Met<'a> {
    op: usize,
    cover: &'a mut Coverage,
}

impl Met<'_> {
    fn when(&mut self, mark: ProgramMark, holds: bool) {
        self.cover.hit_program(self.op, mark, holds);
    }
}

/// What is special about a call on the program.
pub fn mark_program(
    op: usize,
    site: &Site,
    args: &Args,
    expected: &Expected,
    cover: &mut Coverage,
) {
    let mut met = Met { op, cover };
    if expected.number == 0 {
        mark_sizes(site, &mut met);
        mark_sheds(site, &mut met);
        mark_limits(site, &mut met);
        mark_rows(site, &mut met);
    }
    if OPS[op].sheets.len() == OUTPUTS {
        if expected.number == 0 {
            mark_entries(site, &expected.fronts, &mut met);
        }
        mark_room(site, args, expected, &mut met);
    } else {
        mark_raw(site, args, expected, &mut met);
        mark_read(site, args, expected, &mut met);
    }
}

fn mark_sizes(site: &Site, met: &mut Met) {
    let shape = site.shape();
    met.when(ProgramMark::NoBus, shape.count(Count::Buses) == 0);
    let full = |count: &Count| shape.count(*count) == count.limit();
    met.when(ProgramMark::Largest, Count::ALL.iter().all(full));
    let loops = |e: usize| site.wire(Wire::BrFrom, e) == site.wire(Wire::BrTo, e);
    met.when(ProgramMark::SelfLoop, (0..shape.count(Count::Branches)).any(loops));
    let references: Vec<u32> = wires(site, Wire::References);
    let twice = |place: usize| references[..place].contains(&references[place]);
    met.when(ProgramMark::RepeatedReference, (0..references.len()).any(twice));
    let segments = wires(site, Wire::Segments);
    met.when(ProgramMark::OneSegment, segments.contains(&1));
    met.when(ProgramMark::Segments, segments.iter().any(|&own| own > 1));
    let beside = segments.contains(&0) && segments.iter().any(|&own| own > 0);
    met.when(ProgramMark::QuadraticBesides, beside);
}

fn wires(site: &Site, wire: Wire) -> Vec<u32> {
    (0..site.shape().count(wire.length())).map(|place| site.wire(wire, place)).collect()
}

fn readings(site: &Site, field: Field) -> Vec<f64> {
    (0..site.shape().field_range(field).len()).map(|place| site.reading(field, place)).collect()
}

fn mark_sheds(site: &Site, met: &mut Met) {
    let demand = readings(site, Field::Demand);
    let any = |test: &dyn Fn(f64) -> bool| demand.iter().any(|&x| test(x));
    if word(&site.lent.wiring, ALLOW_SHED) == 0 {
        met.when(ProgramMark::SheddingOff, any(&|x| x > 0.0));
        return;
    }
    met.when(ProgramMark::ShedColumn, any(&|x| x > 0.0));
    met.when(ProgramMark::ShedSmall, any(&|x| x == 1e-7));
    met.when(ProgramMark::ShedAtTolerance, any(&|x| x == tolerance()));
    met.when(ProgramMark::ShedSubnormal, any(&|x| x > 0.0 && !x.is_normal()));
    met.when(ProgramMark::DemandZero, any(&|x| x == 0.0));
    met.when(ProgramMark::DemandNegative, any(&|x| x < 0.0));
    met.when(ProgramMark::NoShedColumn, !demand.is_empty() && !any(&|x| x > 0.0));
    met.when(ProgramMark::EveryBusSheds, demand.len() > 1 && !any(&|x| x <= 0.0));
}

fn mark_limits(site: &Site, met: &mut Met) {
    let marks = [
        (
            Wire::ThermalFlags,
            [ProgramMark::ThermalOn, ProgramMark::ThermalOff, ProgramMark::ThermalMixed],
        ),
        (
            Wire::GeneratorFlags,
            [ProgramMark::GeneratorOn, ProgramMark::GeneratorOff, ProgramMark::GeneratorMixed],
        ),
        (Wire::AngleFlags, [ProgramMark::AngleOn, ProgramMark::AngleOff, ProgramMark::AngleMixed]),
    ];
    for (wire, [on, off, mixed]) in marks {
        let flags = wires(site, wire);
        let (set, clear) = (flags.contains(&1), flags.contains(&0));
        met.when(on, set && !clear);
        met.when(off, clear && !set);
        met.when(mixed, set && clear);
    }
}

fn mark_rows(site: &Site, met: &mut Met) {
    let kinds = [
        ProgramMark::RowNone,
        ProgramMark::RowUpper,
        ProgramMark::RowLower,
        ProgramMark::RowBoth,
        ProgramMark::RowEquality,
    ];
    let rows = 0..site.shape().count(Count::Rows);
    let of_kind: Vec<u32> = rows.clone().map(|row| site.oracle().row_kind(row)).collect();
    for (kind, mark) in kinds.into_iter().enumerate() {
        met.when(mark, of_kind.contains(&(kind as u32)));
    }
    let zeros = |row: usize| {
        let (upper, lower) = (site.reading(Field::UpperMw, row), site.reading(Field::LowerMw, row));
        of_kind[row] == 4 && upper == 0.0 && upper.to_bits() != lower.to_bits()
    };
    met.when(ProgramMark::RowEqualityOfZeros, rows.clone().any(zeros));
    let terms = |row| site.wire(Wire::FlowTerms, row) + site.wire(Wire::GenerationTerms, row);
    let bare = |row: usize| of_kind[row] != 0 && terms(row) == 0;
    met.when(ProgramMark::RowWithoutTerms, rows.clone().any(bare));
}

fn mark_entries(site: &Site, fronts: &[Front], met: &mut Met) {
    let zero = |field| readings(site, field).contains(&0.0);
    met.when(ProgramMark::CqZero, zero(Field::Cq));
    met.when(ProgramMark::ClZero, zero(Field::Cl));
    met.when(ProgramMark::SlopeZero, zero(Field::Slopes));
    let (b, sw) = (readings(site, Field::B), readings(site, Field::Sw));
    met.when(ProgramMark::BranchOpen, b.iter().zip(&sw).any(|(b, sw)| -b * sw == 0.0));
    let angles = wires(site, Wire::AngleFlags);
    let still = angles.iter().zip(&sw).any(|(&flag, &sw)| flag == 1 && sw == 0.0);
    met.when(ProgramMark::SwZero, still);
    met.when(ProgramMark::CoefficientZero, zero_coefficient(site));
    met.when(ProgramMark::NoP, fronts[0].len() == 0);
    met.when(ProgramMark::NoA, fronts[3].len() == 0);
    if let Front::U32(cones) = &fronts[8] {
        let equalities =
            (0..site.shape().count(Count::Rows)).any(|row| site.oracle().row_kind(row) == 4);
        met.when(ProgramMark::TwoCones, cones.len() == 2);
        met.when(ProgramMark::EqualityCone, cones.len() == 3 && equalities);
        met.when(ProgramMark::InequalityCone, cones.len() == 3 && !equalities);
        met.when(ProgramMark::FourCones, cones.len() == 4);
        met.when(ProgramMark::EmptyCone, cones[1] == 0);
    }
}

/// Whether a term of a row with limits has the coefficient zero.
fn zero_coefficient(site: &Site) -> bool {
    let coefficients = doubles(&site.lent.term_coefficient);
    let mut first = 0;
    for row in 0..site.shape().count(Count::Rows) {
        let terms = site.wire(Wire::FlowTerms, row) + site.wire(Wire::GenerationTerms, row);
        let own = &coefficients[first..first + terms as usize];
        if site.wire(Wire::RowMasks, row) != 0 && own.contains(&0.0) {
            return true;
        }
        first += terms as usize;
    }
    false
}

const SHORT: [ProgramMark; OUTPUTS] = [
    ProgramMark::PRowsShort,
    ProgramMark::PColumnsShort,
    ProgramMark::PValuesShort,
    ProgramMark::ARowsShort,
    ProgramMark::AColumnsShort,
    ProgramMark::AValuesShort,
    ProgramMark::QShort,
    ProgramMark::BShort,
    ProgramMark::ConesShort,
];

fn mark_room(site: &Site, args: &Args, expected: &Expected, met: &mut Met) {
    let lends = &args.lends;
    let accepted = site.held.lowest() == 0;
    if expected.number == 0 && expected.fronts.iter().all(|front| front.len() > 0) {
        let exact = lends.iter().all(|lend| lend.words == 0 && lend.leftover == 0);
        met.when(ProgramMark::Exact, exact);
        met.when(ProgramMark::Longer, lends.iter().all(|lend| lend.words > 0));
        met.when(ProgramMark::Leftover, lends.iter().any(|lend| lend.leftover > 0));
    }
    let roomy = args.roomy && lends.iter().all(|lend| lend.words >= 0);
    met.when(ProgramMark::Roomy, (2..=3).contains(&expected.number) && roomy);
    if expected.number == 7 && accepted {
        let short: Vec<usize> = (0..OUTPUTS).filter(|&sheet| lends[sheet].words < 0).collect();
        let by_one = |sheet: &usize| lends[*sheet].words == -1;
        for (sheet, mark) in SHORT.into_iter().enumerate() {
            met.when(mark, short == [sheet] && by_one(&sheet));
        }
        met.when(ProgramMark::SeveralShort, short.len() > 1);
        let some_bytes = |sheet: &usize| by_one(sheet) && lends[*sheet].leftover > 0;
        met.when(ProgramMark::ShortLeftover, short.iter().all(some_bytes));
        met.when(ProgramMark::OutputEmpty, expected.sheets.contains(&0));
    }
}

fn mark_raw(site: &Site, args: &Args, expected: &Expected, met: &mut Met) {
    let program = match &site.program {
        Some(program) => program,
        None => return,
    };
    let number = expected.number;
    met.when(ProgramMark::SizeOpen, expected.also == Some(1) && number == 2);
    met.when(ProgramMark::LengthBeforeWiring, number == 1 && expected.held.has(2));
    let broken_reading = number == 1 && site.held.has(3);
    met.when(ProgramMark::LengthBeforeReading, broken_reading);
    if site.held.lowest() > 0 {
        return;
    }
    let lists = [
        [
            ProgramMark::XAtLimit,
            ProgramMark::XMinusZero,
            ProgramMark::XAbove,
            ProgramMark::XNan,
            ProgramMark::XInfinite,
        ],
        [
            ProgramMark::ZAtLimit,
            ProgramMark::ZMinusZero,
            ProgramMark::ZAbove,
            ProgramMark::ZNan,
            ProgramMark::ZInfinite,
        ],
    ];
    for (list, marks) in args.lists.iter().zip(lists) {
        mark_words(&doubles(list), marks, number, met);
    }
    let objective = [
        ProgramMark::ObjectiveAtLimit,
        ProgramMark::ObjectiveMinusZero,
        ProgramMark::ObjectiveAbove,
        ProgramMark::ObjectiveNan,
        ProgramMark::ObjectiveInfinite,
    ];
    mark_words(&[f64::from_bits(args.bits)], objective, number, met);
    let lengths = [
        (program.columns, [ProgramMark::XShort, ProgramMark::XLong, ProgramMark::XRagged]),
        (program.rows, [ProgramMark::ZShort, ProgramMark::ZLong, ProgramMark::ZRagged]),
    ];
    for (list, (words, [short, long, ragged])) in args.lists.iter().zip(lengths) {
        met.when(short, number == 1 && list.len() + 8 == 8 * words);
        met.when(long, number == 1 && list.len() == 8 * words + 8);
        met.when(ragged, number == 1 && list.len() % 8 != 0);
    }
}

/// What a list's words bring about.
fn mark_words(words: &[f64], marks: [ProgramMark; 5], number: u8, met: &mut Met) {
    let [at, minus_zero, just_above, nan, infinite] = marks;
    let any = |test: &dyn Fn(f64) -> bool| words.iter().any(|&x| test(x));
    let refused = number == 3 && words.iter().any(|&x| !within(x, READING_LIMIT));
    met.when(at, number == 0 && any(&|x| x.abs() == READING_LIMIT));
    met.when(minus_zero, number == 0 && any(&|x| x == 0.0 && x.is_sign_negative()));
    met.when(just_above, refused && any(&|x| x.abs() == above(READING_LIMIT)));
    met.when(nan, refused && any(&|x| x.is_nan()));
    met.when(infinite, refused && any(&|x| x.is_infinite()));
}

fn mark_read(site: &Site, args: &Args, expected: &Expected, met: &mut Met) {
    let lend = args.lends[0];
    if expected.number == 0 {
        let objective = word(&site.lent.wiring, OBJECTIVE);
        met.when(ProgramMark::Feasibility, objective == 0);
        met.when(ProgramMark::GeneratorCost, objective == 1);
        met.when(ProgramMark::OtherObjective, objective == 2);
        met.when(ProgramMark::SheetExact, lend.words == 0 && lend.leftover == 0);
        met.when(ProgramMark::SheetLonger, lend.words > 0);
        met.when(ProgramMark::SheetLeftover, lend.leftover > 0);
    }
    if expected.number == 7 {
        met.when(ProgramMark::SheetOneShort, lend.words == -1 && lend.leftover == 0);
        met.when(ProgramMark::SheetShortLeftover, lend.words == -1 && lend.leftover > 0);
        met.when(ProgramMark::SheetEmpty, expected.sheets[0] == 0);
    }
}
