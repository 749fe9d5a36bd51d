//! What the calls on bytes have met: tallies with a floor for each.

use crate::bytes::call::{Ask, Call, Element, Export, EXPORTS};
use crate::bytes::draw::Script;
use crate::bytes::expect::{Due, MOST};
use crate::calls::Site;
use crate::generate::{above, below};
use crate::paper::{
    double, doubles, words, BASE_HIGH, BASE_LOW, PARAMETER_LIMIT, READING_LIMIT, SHEET_LIMIT,
};
use crate::parameters::rules as parameters;
use crate::report::{marks, row, Row};
use crate::sensitivity::rules::{self, ADJOINT, AUTO, FORWARD, OPERANDS, SERVED};
use crate::table::Cases;

/// Each row is met at least this often.
const BYTES_FLOOR: u64 = 500;
/// Each pair of numbers that hold together is met at least this often.
const OVER_FLOOR: u64 = 200;
/// What needs slices as long as are held is met at least this often.
const LONG_FLOOR: u64 = 25;

/// Numbers of each export, and pairs of them that can hold together, the first of which is answered.
const NUMBERS: [(Export, &[usize], &[(usize, usize)]); 5] = [
    (
        Export::ParameterJacobian,
        &[0, 1, 2, 3, 4, 5, 6, 7],
        &[
            (1, 2),
            (1, 3),
            (1, 4),
            (1, 5),
            (1, 6),
            (1, 7),
            (2, 3),
            (2, 4),
            (2, 5),
            (2, 6),
            (2, 7),
            (3, 4),
            (3, 5),
            (3, 6),
            (3, 7),
            (4, 7),
            (5, 7),
            (6, 7),
        ],
    ),
    (
        Export::OperandSelector,
        &[0, 1, 2, 3, 4, 7],
        &[(1, 4), (1, 7), (2, 3), (2, 4), (2, 7), (3, 4), (3, 7)],
    ),
    (Export::First, &[0, 1, 2, 3, 4, 5, 7], &OF_CONTRACTION),
    (Export::Third, &[0, 1, 2, 3, 4, 5, 7], &OF_CONTRACTION),
    (Export::UnitScale, &[0, 3, 4, 7], &[(3, 4), (3, 7), (4, 7)]),
];

/// The first call's sheet is short only in a mode that is served.
const OF_CONTRACTION: [(usize, usize); 14] = [
    (1, 2),
    (1, 3),
    (1, 4),
    (1, 5),
    (1, 7),
    (2, 3),
    (2, 4),
    (2, 5),
    (2, 7),
    (3, 4),
    (3, 5),
    (3, 7),
    (4, 5),
    (5, 7),
];

marks! {
    /// What the outputs of each export were.
    SHEET_MARKS of SheetMark:
    "on bytes: outputs" {
        Exact => "exactly full: filled",
        Leftover => "bytes that make no word after the result: filled",
        Longer => "longer: filled",
        ByteShort => "one byte short: left alone",
        WordShort => "one word short: left alone",
        Nothing => "empty: left alone",
    }
}

marks! {
    /// Things that the calls must have met. A slice that is ragged or too long counts where nothing else
    /// is refused.
    CALL_MARKS of Mark:
    "on bytes: ragged slices" {
        RaggedWiring => "wiring: refused",
        RaggedReadings => "readings: refused",
        RaggedIndex => "term_index: refused",
        RaggedCoefficient => "term_coefficient: refused",
        RaggedSolution => "solution, a sheet's words and some bytes: refused",
        CutSolution => "solution, its last word cut: refused",
        RaggedRows => "rows: refused",
        RaggedWeights => "weights: refused",
        RaggedParameter => "parameter sheet: refused",
        RaggedSolved => "solved column: refused",
        PartRagged => "the sheet that a right side is of: empty",
        OtherRagged => "the other sheet of a right side: empty",
    }
    "on bytes: parameter columns" {
        UnservedNamed => "a parameter of the Rust that is not served: refused",
        UnservedNext => "parameter 19: refused",
        UnservedLowBits => "a parameter whose low 8 bits are served: refused",
        ColumnAtLength => "a column at the length: refused",
        ColumnLowBits => "a column whose low 16 bits are in range: refused",
        ColumnGreatest => "column 2^32 - 1: refused",
        WordAbove => "solution word just above 10^15 or below -10^15: refused",
    }
    "on bytes: selectors of operands" {
        NoElement => "served, without elements: accepted",
        SignShort => "only the sign short, by one byte: refused",
        CountsShort => "only the counts short, by one byte: refused",
        RowsShort => "only the rows short, by one byte: refused",
        WeightsShort => "only the weights short, by one byte: refused",
        OperandNamed => "an operand of the Rust that is not served: refused",
        OperandNext => "operand 13: refused",
        OperandLowBits => "an operand whose low 8 bits are served: refused",
    }
    "on bytes: contraction" {
        FirstForward => "first call forward: accepted",
        FirstNothing => "first call forward, nothing lent: accepted",
        FirstAdjoint => "first call adjoint: accepted",
        ThirdForward => "third call forward: accepted",
        ThirdAdjoint => "third call adjoint: accepted",
        Own => "third call, an operand's entries and a parameter's column: accepted",
        NoEntries => "no entry: accepted",
        RepeatedRow => "a row twice: accepted",
        SignMinus => "sign -1: accepted",
        NotZero => "a result not zero",
        MinusZero => "a result -0",
        EntriesAbove => "one entry more than the slices have: refused",
        EntriesBelow => "one entry fewer: refused",
        EntriesLowBits => "entries whose low bits are right: refused",
        RowsLonger => "more rows than weights: refused",
        WeightsLonger => "more weights than rows: refused",
        WeightAbove => "weight just above 10^12 or below -10^12: refused",
        WeightNotFinite => "weight not finite: refused",
        SignAbove => "sign just above 10^12 or below -10^12: refused",
        SignNotFinite => "sign not finite: refused",
        ModeAuto => "mode 2, automatic: refused",
        ModeNext => "mode 3: refused",
        ModeLowBits => "a mode whose low 8 bits are served: refused",
        RowAtDim => "row at dim: refused",
        RowLowBits => "row whose low 16 bits are in range: refused",
        RowGreatest => "row 2^32 - 1: refused",
        ParameterShort => "parameter sheet one word short: refused",
        ParameterAbove => "parameter word just above 10^60 or below -10^60: refused",
        ParameterBehind => "a word behind the parameter column not finite: accepted",
        SolvedShort => "solved column one word short: refused",
        SolvedLong => "solved column one word long: refused",
        SolvedAbove => "solved word just above 10^15 or below -10^15: refused",
    }
    "on bytes: right sides" {
        PartForward => "forward, the whole sheet: handed back",
        PartAdjoint => "adjoint, the whole sheet: handed back",
        PartFront => "fewer words than the sheet has: handed back",
        PartPast => "one word more than the sheet has: empty",
        PartMany => "a count of 2^61 or more: empty",
        PartAuto => "mode 2, automatic, count within both sheets: empty",
        PartUnknown => "an unknown mode, count within both sheets: empty",
    }
    "on bytes: unit scales" {
        BaseAtLow => "base at 0.001: accepted",
        BaseAtHigh => "base at 10^6: accepted",
        BaseBelowLow => "base just below 0.001: refused",
        BaseAboveHigh => "base just above 10^6: refused",
        BaseNan => "base NaN: refused",
        ScaleOperand => "operand 13: refused",
        ScaleParameter => "parameter 19: refused",
        ScaleLowBits => "both unknown, the low 8 bits of both known: refused",
    }
}

marks! {
    /// The same of slices as long as are held, or longer.
    LONG_MARKS of LongMark:
    "on bytes: long slices" {
        SelectorMost => "6,544 entries: accepted",
        SelectorPast => "one entry more or several: refused",
        ParameterMost => "parameter sheet of 6,544 words: accepted",
        ParameterPast => "parameter sheet of more: refused",
        PartMost => "right side of a sheet of 6,544 words: handed back",
        PartPast => "right side of a sheet of more: empty",
        OtherPast => "the other sheet of more: empty",
        DimMost => "dim 6,544, third call: accepted",
        DimMostFirst => "dim 6,544, first call adjoint, exactly full: accepted",
        DimMostColumn => "dim 6,544, a parameter column, exactly full: accepted",
    }
}

pub struct Tally {
    pub accepted_networks: u64,
    pub damaged_networks: u64,
    pub cases: [Cases; EXPORTS],
    answers: [[u64; 8]; EXPORTS],
    over: [[[u64; 8]; 8]; EXPORTS],
    sheets: [[u64; SHEET_MARKS.len()]; EXPORTS],
    /// Accepted columns of each served parameter, and selectors with elements of each served operand.
    parameters: [u64; parameters::SERVED.len()],
    operands: [u64; SERVED.len()],
    scales: [[u64; 19]; OPERANDS.len()],
    marks: [u64; CALL_MARKS.len()],
    long: [u64; LONG_MARKS.len()],
}

fn just_past(x: f64, limit: f64) -> bool {
    x.abs() == above(limit)
}

impl Tally {
    pub fn new() -> Tally {
        Tally {
            accepted_networks: 0,
            damaged_networks: 0,
            cases: Default::default(),
            answers: [[0; 8]; EXPORTS],
            over: [[[0; 8]; 8]; EXPORTS],
            sheets: [[0; SHEET_MARKS.len()]; EXPORTS],
            parameters: [0; parameters::SERVED.len()],
            operands: [0; SERVED.len()],
            scales: [[0; 19]; OPERANDS.len()],
            marks: [0; CALL_MARKS.len()],
            long: [0; LONG_MARKS.len()],
        }
    }

    fn hit_if(&mut self, mark: Mark, met: bool) {
        self.marks[mark as usize] += u64::from(met);
    }

    fn hit_long(&mut self, mark: LongMark, met: bool) {
        self.long[mark as usize] += u64::from(met);
    }

    pub fn rows(&self) -> Vec<Row> {
        let mut rows = Vec::new();
        for (export, numbers, _) in NUMBERS {
            for &number in numbers {
                let hits = self.answers[export as usize][number];
                let name = format!("{}: {}", export.name(), number);
                rows.push(row("on bytes: answers", name, hits, BYTES_FLOOR));
            }
        }
        for (export, _, pairs) in NUMBERS {
            for &(low, high) in pairs {
                let hits = self.over[export as usize][low][high];
                let name = format!("{}: {} before {}", export.name(), low, high);
                rows.push(row("on bytes: lowest of several", name, hits, OVER_FLOOR));
            }
        }
        for (mark, (title, name)) in SHEET_MARKS.iter().enumerate() {
            for export in Export::ALL {
                let hits = self.sheets[export as usize][mark];
                rows.push(row(title, format!("{}: {}", export.name(), name), hits, BYTES_FLOOR));
            }
        }
        for (served, &hits) in parameters::SERVED.iter().zip(&self.parameters) {
            rows.push(row("on bytes: columns accepted", served.2.into(), hits, BYTES_FLOOR));
        }
        for (served, &hits) in SERVED.iter().zip(&self.operands) {
            rows.push(row("on bytes: operands with elements", served.2.into(), hits, BYTES_FLOOR));
        }
        for ((title, name), &hits) in CALL_MARKS.iter().zip(&self.marks) {
            rows.push(row(title, name.to_string(), hits, BYTES_FLOOR));
        }
        for ((title, name), &hits) in LONG_MARKS.iter().zip(&self.long) {
            rows.push(row(title, name.to_string(), hits, LONG_FLOOR));
        }
        let least = self.scales.iter().flatten().min().copied().unwrap_or(0);
        let name = "each operand with each parameter, at least: accepted".to_string();
        rows.push(row("on bytes: pairs of unit scales", name, least, LONG_FLOOR));
        rows
    }

    pub fn script(&mut self, script: &Script) {
        self.hit_if(Mark::Own, script.own);
    }

    /// What is special about a call.
    pub fn call(&mut self, site: &Site, ask: &Ask, due: &Due) {
        let export = ask.export() as usize;
        let number = due.held.lowest();
        let empty = matches!(ask.call, Call::RightSide { .. }) && due.answer == 0;
        self.cases[export].run += 1;
        self.cases[export].refused += u64::from(empty || number > 0);
        self.answers[export][usize::from(number)] += 1;
        for high in number + 1..8 {
            let both = number > 0 && due.held.has(high);
            self.over[export][usize::from(number)][usize::from(high)] += u64::from(both);
        }
        self.outputs(site, ask, due);
        if ask.export().takes_network() && number == 1 && site.shape.is_none() {
            let marks = [
                Mark::RaggedWiring,
                Mark::RaggedReadings,
                Mark::RaggedIndex,
                Mark::RaggedCoefficient,
            ];
            for ((mark, slice), size) in marks.into_iter().zip(site.lent.slices()).zip([4, 8, 4, 8])
            {
                self.hit_if(mark, slice.len() % size != 0);
            }
        }
        // Refused for its bytes alone.
        let alone = number == 1 && due.of_words.lowest() == 0;
        match &ask.call {
            Call::ParameterJacobian { solution, parameter, column } => {
                let (ragged, alone) = (solution.len() % 8 != 0, number == 1 && alone);
                self.hit_if(Mark::RaggedSolution, alone && ragged);
                self.column(site, solution, *parameter, *column, ask.rooms[0], number);
            }
            Call::OperandSelector { operand } => self.selector(site, *operand, number),
            Call::First { element } => {
                self.element(site, element, number, alone);
                let (forward, adjoint) = (element.mode == FORWARD, element.mode == ADJOINT);
                self.hit_if(Mark::FirstForward, number == 0 && forward);
                self.hit_if(Mark::FirstNothing, number == 0 && forward && ask.rooms[0] == 0);
                self.hit_if(Mark::FirstAdjoint, number == 0 && adjoint);
                let exact = ask.rooms[0] == 8 * MOST && due.answer == 256 * MOST as u64;
                self.hit_long(LongMark::DimMostFirst, adjoint && exact);
            }
            Call::RightSide { .. } => self.part(ask, due),
            Call::Third { element, parameter, solved } => {
                self.element(site, element, number, alone);
                self.third(site, element, parameter, solved, due, alone);
            }
            Call::UnitScale { operand, parameter, base } => {
                self.scale(*operand, *parameter, *base, number);
            }
        }
    }

    /// How much of each output was lent, where its result is known.
    fn outputs(&mut self, site: &Site, ask: &Ask, due: &Due) {
        let needs: Vec<usize> = match &ask.call {
            Call::ParameterJacobian { .. } if site.shape.is_some() => vec![8 * rules::dim(site)],
            Call::OperandSelector { operand } if rules::served(*operand).is_some() => {
                let count = rules::served(*operand).and_then(|count| site.count(count));
                let elements = count.unwrap_or(0);
                vec![8, 4 * elements, 4 * elements, 8 * elements]
            }
            Call::First { element } if element.mode == ADJOINT && site.shape.is_some() => {
                vec![8 * rules::dim(site)]
            }
            Call::RightSide { .. } => vec![8 * due.answer as usize],
            Call::Third { .. } | Call::UnitScale { .. } => vec![8],
            _ => return,
        };
        let sheets = ask.export().sheets();
        let all = |test: &dyn Fn(usize, usize, usize) -> bool| {
            (0..needs.len()).all(|at| test(ask.rooms[at], needs[at], sheets[at].1))
        };
        let filled = due.held.lowest() == 0 && !due.fronts.is_empty() && needs[0] > 0;
        let of_right_side = matches!(ask.call, Call::RightSide { .. });
        let left = due.held.lowest() == 7 || (of_right_side && due.fronts.is_empty());
        let short: Vec<usize> = (0..needs.len()).filter(|&at| ask.rooms[at] < needs[at]).collect();
        let one = |test: &dyn Fn(usize, usize, usize) -> bool| {
            left && short.len() == 1 && {
                let at = short[0];
                test(ask.rooms[at], needs[at], sheets[at].1)
            }
        };
        let marks = [
            (SheetMark::Exact, filled && all(&|room, need, _| room == need)),
            (
                SheetMark::Leftover,
                filled
                    && all(&|room, need, _| room >= need)
                    && !all(&|room, need, size| (room - need) % size == 0),
            ),
            (SheetMark::Longer, filled && all(&|room, need, size| room >= need + size)),
            (SheetMark::ByteShort, one(&|room, need, _| room + 1 == need)),
            (SheetMark::WordShort, one(&|room, need, size| room + size == need)),
            (SheetMark::Nothing, one(&|room, _, _| room == 0)),
        ];
        for (mark, met) in marks {
            self.sheets[ask.export() as usize][mark as usize] += u64::from(met);
        }
        if let (Call::OperandSelector { .. }, true) = (&ask.call, one(&|r, need, _| r + 1 == need))
        {
            let of = [Mark::SignShort, Mark::CountsShort, Mark::RowsShort, Mark::WeightsShort];
            self.hit_if(of[short[0]], true);
        }
    }

    fn column(
        &mut self,
        site: &Site,
        solution: &[u8],
        parameter: u32,
        column: u32,
        room: usize,
        number: u8,
    ) {
        use Mark::*;
        let low = parameters::served(parameter & 0xFF).is_some();
        match number {
            0 => {
                let served = parameters::SERVED.iter().position(|served| served.0 == parameter);
                self.parameters[served.expect("an accepted parameter is served")] += 1;
                let most = rules::dim(site) == MOST && room == 8 * MOST;
                self.hit_long(LongMark::DimMostColumn, most);
            }
            1 => {
                let whole = site.shape.as_ref().map(|shape| 8 * shape.blocks.length());
                let cut = whole
                    .map_or(false, |whole| solution.len() < whole && solution.len() + 8 > whole);
                self.hit_if(CutSolution, site.held.lowest() == 0 && cut);
            }
            3 => {
                let past = |x: &f64| just_past(*x, SHEET_LIMIT);
                self.hit_if(WordAbove, doubles(solution).iter().any(past));
            }
            4 => {
                self.hit_if(UnservedNamed, parameter < 19);
                self.hit_if(UnservedNext, parameter == 19);
                self.hit_if(UnservedLowBits, parameter > 0xFF && low);
            }
            5 => {
                let count = parameters::served(parameter).expect("5 comes after 4");
                let (length, at) = (site.shape().count(count), column as usize);
                self.hit_if(ColumnAtLength, at == length);
                self.hit_if(ColumnLowBits, at > 0xFFFF && (at & 0xFFFF) < length);
                self.hit_if(ColumnGreatest, column == u32::MAX);
            }
            _ => {}
        }
    }

    fn selector(&mut self, site: &Site, operand: u32, number: u8) {
        use Mark::*;
        let low = rules::served(operand & 0xFF).is_some();
        self.hit_if(OperandNamed, number == 4 && operand < 13);
        self.hit_if(OperandNext, number == 4 && operand == 13);
        self.hit_if(OperandLowBits, number == 4 && operand > 0xFF && low);
        let place = SERVED.iter().position(|served| served.0 == operand);
        if let Some(place) = place.filter(|_| number == 0) {
            let elements = site.shape().count(SERVED[place].1);
            self.operands[place] += u64::from(elements > 0);
            self.hit_if(NoElement, elements == 0);
        }
    }

    /// What is special about the selector and the mode of a contraction.
    fn element(&mut self, site: &Site, element: &Element, number: u8, alone: bool) {
        use Mark::*;
        let Element { mode, sign, entries, .. } = *element;
        let (rows, weights) = (element.rows.len() / 4, element.weights.len() / 8);
        let ragged = [element.rows.len() % 4 != 0, element.weights.len() % 8 != 0];
        let weight =
            |test: &dyn Fn(f64) -> bool| doubles(&element.weights).iter().any(|&x| test(x));
        let row = |test: &dyn Fn(u32) -> bool| words(&element.rows).iter().any(|&x| test(x));
        match number {
            0 => {
                let mut sorted = words(&element.rows);
                sorted.sort_unstable();
                self.hit_if(NoEntries, rows == 0);
                self.hit_if(RepeatedRow, sorted.windows(2).any(|two| two[0] == two[1]));
                self.hit_if(SignMinus, sign == -1.0);
                self.hit_long(LongMark::SelectorMost, rows == MOST);
            }
            1 => {
                self.hit_if(RaggedRows, alone && ragged == [true, false]);
                self.hit_if(RaggedWeights, alone && ragged == [false, true]);
                let long = alone && ragged == [false; 2] && rows > MOST;
                self.hit_long(LongMark::SelectorPast, long);
                let even = rows == weights && ragged == [false; 2];
                let all = u32::try_from(rows).expect("few rows");
                self.hit_if(EntriesAbove, even && entries == all + 1);
                self.hit_if(EntriesBelow, even && entries.wrapping_add(1) == all);
                self.hit_if(EntriesLowBits, even && entries > 0xFF && entries & 0xFF == all);
                self.hit_if(RowsLonger, rows > weights && entries == all);
                self.hit_if(WeightsLonger, weights > rows && entries == all);
            }
            3 => {
                self.hit_if(WeightAbove, weight(&|x| just_past(x, READING_LIMIT)));
                self.hit_if(WeightNotFinite, weight(&|x| !x.is_finite()));
                self.hit_if(SignAbove, just_past(sign, READING_LIMIT));
                self.hit_if(SignNotFinite, !sign.is_finite());
            }
            4 => {
                self.hit_if(ModeAuto, mode == AUTO);
                self.hit_if(ModeNext, mode == 3);
                self.hit_if(ModeLowBits, mode > 0xFF && mode & 0xFF < AUTO);
            }
            5 => {
                let dim = rules::dim(site) as u32;
                self.hit_if(RowAtDim, row(&|x| x == dim));
                self.hit_if(RowLowBits, row(&|x| x > 0xFFFF && x & 0xFFFF < dim));
                self.hit_if(RowGreatest, row(&|x| x == u32::MAX));
            }
            _ => {}
        }
    }

    fn third(
        &mut self,
        site: &Site,
        element: &Element,
        parameter: &[u8],
        solved: &[u8],
        due: &Due,
        alone: bool,
    ) {
        use Mark::*;
        if site.held.lowest() > 0 {
            return;
        }
        let dim = rules::dim(site);
        let of_selector = element.rows.len() % 4 != 0 || element.weights.len() % 8 != 0;
        let of_selector = of_selector || element.rows.len() / 4 > MOST;
        let ragged = [parameter.len() % 8 != 0, solved.len() % 8 != 0];
        match due.held.lowest() {
            0 => {
                let result = double(&due.fronts[0], 0);
                self.hit_if(ThirdForward, element.mode == FORWARD);
                self.hit_if(ThirdAdjoint, element.mode == ADJOINT);
                self.hit_if(NotZero, result != 0.0);
                self.hit_if(MinusZero, result == 0.0 && result.is_sign_negative());
                let behind = doubles(&parameter[8 * dim..]);
                self.hit_if(ParameterBehind, behind.iter().any(|x| !x.is_finite()));
                self.hit_long(LongMark::ParameterMost, dim < MOST && parameter.len() == 8 * MOST);
                self.hit_long(LongMark::DimMost, dim == MOST);
            }
            1 => {
                let whole = !of_selector && ragged == [false; 2];
                self.hit_if(RaggedParameter, alone && !of_selector && ragged == [true, false]);
                self.hit_if(RaggedSolved, alone && !of_selector && ragged == [false, true]);
                let past = parameter.len() / 8 > MOST;
                self.hit_long(LongMark::ParameterPast, alone && whole && past);
                self.hit_if(ParameterShort, parameter.len() + 8 == 8 * dim);
                self.hit_if(SolvedShort, solved.len() + 8 == 8 * dim);
                self.hit_if(SolvedLong, solved.len() == 8 * dim + 8);
            }
            3 => {
                let front = doubles(&parameter[..8 * dim]);
                self.hit_if(ParameterAbove, front.iter().any(|&x| just_past(x, PARAMETER_LIMIT)));
                let past = |x: &f64| just_past(*x, SHEET_LIMIT);
                self.hit_if(SolvedAbove, doubles(solved).iter().any(past));
            }
            _ => {}
        }
    }

    fn part(&mut self, ask: &Ask, due: &Due) {
        use Mark::*;
        let (mode, count, parameter, selection) = match &ask.call {
            Call::RightSide { mode, count, parameter, selection } => {
                (*mode, *count, parameter.len(), selection.len())
            }
            _ => return,
        };
        let (own, other) = match mode {
            ADJOINT => (selection, parameter),
            _ => (parameter, selection),
        };
        let served = rules::mode(mode).is_some();
        let sound = |bytes: usize| bytes % 8 == 0 && bytes / 8 <= MOST;
        let within = served && count > 0 && count <= own / 8;
        self.hit_if(PartRagged, within && own % 8 != 0 && own / 8 <= MOST && sound(other));
        self.hit_if(OtherRagged, within && other % 8 != 0 && other / 8 <= MOST && sound(own));
        let long = |bytes: usize| bytes % 8 == 0 && bytes / 8 > MOST;
        self.hit_long(LongMark::PartMost, due.answer > 0 && own == 8 * MOST);
        self.hit_long(LongMark::PartPast, within && long(own) && sound(other));
        self.hit_long(LongMark::OtherPast, within && long(other) && sound(own));
        if !sound(own) || !sound(other) {
            return;
        }
        let whole = due.answer > 0 && 8 * due.answer == own as u64;
        self.hit_if(PartForward, mode == FORWARD && whole);
        self.hit_if(PartAdjoint, mode == ADJOINT && whole);
        self.hit_if(PartFront, due.answer > 0 && !whole);
        self.hit_if(PartPast, served && count == own / 8 + 1);
        self.hit_if(PartMany, served && count >= 1 << 61);
        let within = count > 0 && count <= parameter.min(selection) / 8;
        self.hit_if(PartAuto, mode == AUTO && within);
        self.hit_if(PartUnknown, mode > AUTO && within);
    }

    fn scale(&mut self, operand: u32, parameter: u32, base: f64, number: u8) {
        use Mark::*;
        match number {
            0 => {
                self.scales[operand as usize][parameter as usize] += 1;
                self.hit_if(BaseAtLow, base == BASE_LOW);
                self.hit_if(BaseAtHigh, base == BASE_HIGH);
            }
            3 => {
                self.hit_if(BaseBelowLow, base == below(BASE_LOW));
                self.hit_if(BaseAboveHigh, base == above(BASE_HIGH));
                self.hit_if(BaseNan, base.is_nan());
            }
            4 => {
                let past = |code: u32, known: u32| code > 0xFF && code & 0xFF < known;
                self.hit_if(ScaleOperand, operand == 13 && parameter < 19);
                self.hit_if(ScaleParameter, parameter == 19 && operand < 13);
                self.hit_if(ScaleLowBits, past(operand, 13) && past(parameter, 19));
            }
            _ => {}
        }
    }
}
