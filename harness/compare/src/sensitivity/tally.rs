//! What the calls have met: tallies with a floor for each.

use crate::calls::Site;
use crate::generate::{above, below};
use crate::paper::{Held, BASE_HIGH, BASE_LOW, PARAMETER_LIMIT, READING_LIMIT, SHEET_LIMIT};
use crate::report::{marks, row, Row};
use crate::sensitivity::call::{Ask, Call, Contraction, Export, Words, EXPORTS};
use crate::sensitivity::draw::Script;
use crate::sensitivity::expect::Due;
use crate::sensitivity::rules::{self, product, ADJOINT, AUTO, FORWARD, OPERANDS, SERVED};
use crate::table::Cases;

/// Each row is met at least this often.
const SENSITIVITY_FLOOR: u64 = 1000;
/// Each pair of numbers that hold together is met at least this often.
const OVER_FLOOR: u64 = 500;
/// What only a network without rows of the matrix can meet, or one with many, is met at least
/// this often.
const RARE_FLOOR: u64 = 20;

/// Numbers of each export, and pairs of them that can hold together, the first of which is
/// answered. An operand that isn't served has no sheets; the first call's is short only when
/// adjoint.
const NUMBERS: [(Export, &[usize], &[(usize, usize)]); 4] = [
    (
        Export::OperandSelector,
        &[0, 1, 2, 3, 4, 7],
        &[(1, 4), (1, 7), (2, 3), (2, 4), (2, 7), (3, 4), (3, 7)],
    ),
    (Export::First, &[0, 1, 2, 3, 4, 5, 7], &OF_FIRST),
    (Export::Third, &[0, 1, 2, 3, 4, 5, 7], &OF_THIRD),
    (Export::UnitScale, &[0, 3, 4, 7], &[(3, 4), (3, 7), (4, 7)]),
];

const OF_FIRST: [(usize, usize); 14] = [
    (1, 2),
    (1, 3),
    (1, 4),
    (1, 5),
    (1, 7),
    (2, 3),
    (2, 4),
    (2, 5),
    (2, 7),
    (3, 4),
    (3, 5),
    (3, 7),
    (4, 5),
    (5, 7),
];

const OF_THIRD: [(usize, usize); 15] = [
    (1, 2),
    (1, 3),
    (1, 4),
    (1, 5),
    (1, 7),
    (2, 3),
    (2, 4),
    (2, 5),
    (2, 7),
    (3, 4),
    (3, 5),
    (3, 7),
    (4, 5),
    (4, 7),
    (5, 7),
];

marks! {
    /// Things that the calls must have met.
    CALL_MARKS of Mark:
    "selectors of operands" {
        NoElement => "served, without elements: accepted",
        SelectorExact => "all sheets exactly full, with elements: accepted",
        SelectorLonger => "all sheets longer: accepted",
        SignShort => "only the sign short: refused",
        CountsShort => "only the counts short, by one word: refused",
        RowsShort => "only the rows short, by one word: refused",
        WeightsShort => "only the weights short, by one word: refused",
        OperandNamed => "an operand of the Rust that is not served: refused",
        OperandNext => "operand 13: refused",
        OperandLowBits => "an operand whose low 8 bits are served: refused",
    }
    "contraction: refused, first or third call" {
        SumAbove => "counts sum to more than the entries",
        SumBelow => "counts sum to fewer than the entries",
        SumLowBits => "counts sum to the entries in 32 bits only",
        RowsLonger => "more rows than weights, the counts' sum of rows",
        WeightsLonger => "more weights than rows, the counts' sum of rows",
        WeightAbove => "weight just above +10^12",
        WeightBelow => "weight just below -10^12",
        WeightNotFinite => "weight not finite",
        SignAbove => "sign just above +10^12 or below -10^12",
        SignNotFinite => "sign not finite",
        ModeAuto => "mode 2, automatic",
        ModeNext => "mode 3",
        ModeLowBits => "a mode whose low 8 bits are served",
        RowAtDim => "row at dim",
        RowLowBits => "row whose low 16 bits are in range",
        RowGreatest => "row 2^32 - 1",
    }
    "contraction: first call" {
        FirstForward => "forward: accepted",
        FirstAdjoint => "adjoint, a sheet of words: accepted",
        FirstNothing => "forward, no room: accepted",
        FirstExact => "adjoint, exactly full: accepted",
        FirstLonger => "adjoint, longer: accepted",
        FirstOneShort => "adjoint, one word short: refused",
        FirstAnyColumns => "adjoint, 2^63 columns or more: accepted",
        CountPast32 => "forward, count of 2^32 or more: accepted",
        CountMost => "forward, the most columns whose count has 64 bits: accepted",
        CountPast64 => "forward, one column more: refused",
        ColumnsGreatest => "forward, 2^64 - 1 columns: refused",
        ColumnsWrap => "forward, count wraps to that of fewer columns: refused",
    }
    "contraction: third call" {
        ParameterOneShort => "parameter sheet one word short: refused",
        SolvedOneShort => "solved columns one word short: refused",
        SolvedOneLong => "solved columns one word long: refused",
        ThirdMany => "2^32 columns or more: refused for the size",
        ThirdWrap => "words of the columns wrap to those there are: refused",
        ParameterAbove => "parameter word just above 10^60 or below -10^60: refused",
        ParameterNotFinite => "parameter word not finite: refused",
        SolvedAbove => "solved word just above 10^15 or below -10^15: refused",
        SolvedNotFinite => "solved word not finite: refused",
        OutOneShort => "output one word short: refused",
        OutNothing => "output empty: refused",
    }
    "right sides" {
        PartForward => "forward, the whole sheet: handed back",
        PartAdjoint => "adjoint, the whole sheet: handed back",
        PartFront => "fewer words than the sheet has: handed back",
        PartPast => "one word more than the sheet has: empty",
        PartMost => "a count of 2^61 or more: empty",
        PartAuto => "mode 2, automatic, count within both sheets: empty",
        PartUnknown => "an unknown mode, count within both sheets: empty",
        PartExact => "output exactly full: copied",
        PartLonger => "output longer: copied",
        PartOneShort => "output one word short: not copied",
    }
    "unit scales" {
        ScaleExact => "output of one word: accepted",
        ScaleLonger => "output longer: accepted",
        BaseAtLow => "base at 0.001: accepted",
        BaseAtHigh => "base at 10^6: accepted",
        BaseBelowLow => "base just below 0.001: refused",
        BaseAboveHigh => "base just above 10^6: refused",
        BaseNan => "base NaN: refused",
        ScaleOperand => "operand 13: refused",
        ScaleParameter => "parameter 19: refused",
        ScaleLowBits => "both unknown, the low 8 bits of both known: refused",
    }
}

marks! {
    /// Things that accepted third calls must have met in either mode.
    MODE_MARKS of ModeMark:
    "selectors" {
        UnitRows => "an entry of weight 1 for each of several elements",
        SeveralEntries => "an element with several entries",
        RepeatedRow => "an element with a row twice",
        WithoutEntries => "an element without entries",
        NegativeWeight => "weight negative",
        ZeroWeight => "weight zero",
        WeightAtLimit => "weight at 10^12 or -10^12",
        SignMinus => "sign -1",
        SignOther => "sign neither 1 nor -1",
        SignAtLimit => "sign at 10^12 or -10^12",
    }
    "sheets" {
        NoElements => "no element",
        NoColumns => "no column",
        Several => "several elements and columns",
        ManyWords => "parameter and solved columns of 10,000 words or more",
        ParameterBehind => "parameter sheet longer, a word behind its columns not finite",
        ParameterAtLimit => "parameter word at 10^60 or -10^60",
        ParameterMinusZero => "parameter word -0",
        SolvedAtLimit => "solved word at 10^15 or -10^15",
        OutExact => "output exactly full",
        OutLonger => "output longer",
        OutMinusZero => "a result -0",
        OutNotZero => "a result not zero",
    }
}

marks! {
    /// The same of networks without rows of the matrix.
    EMPTY_MARKS of EmptyMark:
    "contraction: dim 0" {
        EmptyForward => "third call forward, with elements and columns: accepted",
        EmptyAdjoint => "third call adjoint, with elements and columns: accepted",
        EmptyMany => "2^32 columns or more, no element: accepted",
        EmptyShort => "2^32 columns or more, with elements: refused as short",
        EmptyWrap => "the output's words wrap to none: refused as short",
        EmptyCount => "first call forward, 2^32 columns or more: accepted",
    }
}

pub struct Tally {
    pub accepted_networks: u64,
    pub damaged_networks: u64,
    pub cases: [Cases; EXPORTS],
    answers: [[u64; 8]; EXPORTS],
    over: [[[u64; 8]; 8]; EXPORTS],
    /// For each served operand, accepted calls with elements.
    served: [u64; SERVED.len()],
    /// For each mode, accepted third calls with words.
    contracted: [u64; 2],
    /// For each mode, contractions with elements and columns whose elements are an operand's,
    /// whose columns are a parameter's, and for which both holds.
    own: [[u64; 3]; 2],
    /// For each operand and parameter, accepted calls.
    scales: [[u64; 19]; OPERANDS.len()],
    marks: [u64; CALL_MARKS.len()],
    modes: [[u64; MODE_MARKS.len()]; 2],
    empty: [u64; EMPTY_MARKS.len()],
}

/// Whether a word is the first past a limit.
fn just_past(x: f64, limit: f64) -> bool {
    x.abs() == above(limit)
}

fn is_minus_zero(x: f64) -> bool {
    x == 0.0 && x.is_sign_negative()
}

impl Tally {
    pub fn new() -> Tally {
        Tally {
            accepted_networks: 0,
            damaged_networks: 0,
            cases: Default::default(),
            answers: [[0; 8]; EXPORTS],
            over: [[[0; 8]; 8]; EXPORTS],
            served: [0; SERVED.len()],
            contracted: [0; 2],
            own: [[0; 3]; 2],
            scales: [[0; 19]; OPERANDS.len()],
            marks: [0; CALL_MARKS.len()],
            modes: [[0; MODE_MARKS.len()]; 2],
            empty: [0; EMPTY_MARKS.len()],
        }
    }

    fn hit_if(&mut self, mark: Mark, met: bool) {
        self.marks[mark as usize] += u64::from(met);
    }

    fn hit_empty(&mut self, mark: EmptyMark, met: bool) {
        self.empty[mark as usize] += u64::from(met);
    }

    /// A row for each tally. Each export is called at least so often.
    pub fn rows(&self, calls: u64) -> Vec<Row> {
        let mut rows = Vec::new();
        for export in Export::ALL {
            let hits = self.cases[export as usize].run;
            rows.push(row("sensitivity: calls", export.name().to_string(), hits, calls));
        }
        for (served, &hits) in SERVED.iter().zip(&self.served) {
            let title = "selectors of operands: accepted, with elements";
            rows.push(row(title, served.2.to_string(), hits, SENSITIVITY_FLOOR));
        }
        self.number_rows(&mut rows);
        for ((title, name), &hits) in CALL_MARKS.iter().zip(&self.marks) {
            rows.push(row(title, name.to_string(), hits, SENSITIVITY_FLOOR));
        }
        for mode in [FORWARD, ADJOINT] {
            self.mode_rows(&mut rows, mode as usize);
        }
        for ((title, name), &hits) in EMPTY_MARKS.iter().zip(&self.empty) {
            rows.push(row(title, name.to_string(), hits, RARE_FLOOR));
        }
        let least = self.scales.iter().flatten().min().copied().unwrap_or(0);
        let name = "each operand with each parameter, at least: accepted".to_string();
        rows.push(row("unit scales: pairs", name, least, SENSITIVITY_FLOOR));
        rows
    }

    fn mode_rows(&self, rows: &mut Vec<Row>, mode: usize) {
        let title = format!("contraction: third call {}, accepted", ["forward", "adjoint"][mode]);
        let names = ["with words", "elements of an operand", "columns of a parameter", "both"];
        let hits = [self.contracted[mode]].into_iter().chain(self.own[mode]);
        for (name, hits) in names.iter().zip(hits) {
            rows.push(row(&title, name.to_string(), hits, SENSITIVITY_FLOOR));
        }
        let marks = MODE_MARKS.iter().zip(&self.modes[mode]);
        for (mark, ((part, name), &hits)) in marks.enumerate() {
            let rare = mark == ModeMark::ManyWords as usize;
            let floor = if rare { RARE_FLOOR } else { SENSITIVITY_FLOOR };
            rows.push(row(&title, format!("{}: {}", part, name), hits, floor));
        }
    }

    fn number_rows(&self, rows: &mut Vec<Row>) {
        for (export, numbers, _) in NUMBERS {
            for &number in numbers {
                let hits = self.answers[export as usize][number];
                let name = format!("{}: {}", export.name(), number);
                rows.push(row("sensitivity: answers", name, hits, SENSITIVITY_FLOOR));
            }
        }
        for (export, _, rivals) in NUMBERS {
            for &(low, high) in rivals {
                let hits = self.over[export as usize][low][high];
                let name = format!("{}: {} before {}", export.name(), low, high);
                rows.push(row("sensitivity: lowest of several", name, hits, OVER_FLOOR));
            }
        }
    }

    /// Where a contraction's selector and columns come from.
    pub fn script(&mut self, script: &Script) {
        let Contraction { mode, columns, .. } = script.contraction;
        let [elements, parameter] = script.own;
        if script.contraction.elements() > 0 && columns > 0 {
            let met = [elements, parameter, elements && parameter];
            for (hits, met) in self.own[mode as usize].iter_mut().zip(met) {
                *hits += u64::from(met);
            }
        }
    }

    /// What is special about a call with these numbers.
    pub fn call(&mut self, site: &Site, ask: &Ask, held: Held, due: &Due) {
        let export = ask.export() as usize;
        // A right side has no number: its part is empty or not.
        let empty = matches!(ask.call, Call::RightSide { .. }) && due.answer == 0;
        self.cases[export].run += 1;
        self.cases[export].refused += u64::from(empty || held.lowest() > 0);
        let number = held.lowest();
        self.answers[export][usize::from(number)] += 1;
        for high in number + 1..8 {
            let both = number > 0 && held.has(high);
            self.over[export][usize::from(number)][usize::from(high)] += u64::from(both);
        }
        match &ask.call {
            Call::OperandSelector { operand } => self.selector(site, *operand, ask, number),
            Call::First { contraction } => {
                self.refused(site, contraction, number);
                self.first(site, contraction, ask.rooms[0], number);
            }
            Call::RightSide { .. } => self.part(ask, due),
            Call::Third { contraction, parameter, solved } => {
                self.refused(site, contraction, number);
                if number == 0 {
                    self.contracted(contraction, parameter, solved, ask, due);
                } else {
                    self.third(site, contraction, parameter, solved, ask.rooms[0], held);
                }
                self.without_rows(site, contraction, number);
            }
            Call::UnitScale { .. } => self.scale(ask, number),
        }
    }

    fn selector(&mut self, site: &Site, operand: u32, ask: &Ask, number: u8) {
        use Mark::*;
        let low = rules::served(operand & 0xFF).is_some();
        self.hit_if(OperandNamed, number == 4 && operand < 13);
        self.hit_if(OperandNext, number == 4 && operand == 13);
        self.hit_if(OperandLowBits, number == 4 && operand > 0xFF && low);
        let place = match SERVED.iter().position(|served| served.0 == operand) {
            Some(place) if number == 0 || number == 7 => place,
            _ => return,
        };
        let elements = site.shape().count(SERVED[place].1);
        let needs = [1, elements, elements, elements];
        let rooms = || ask.rooms.iter().zip(needs);
        if number == 0 {
            self.served[place] += u64::from(elements > 0);
            self.hit_if(NoElement, elements == 0);
            self.hit_if(SelectorExact, elements > 0 && ask.rooms == needs);
            self.hit_if(SelectorLonger, rooms().all(|(&room, need)| room > need));
            return;
        }
        let short: Vec<usize> = (0..4).filter(|&sheet| ask.rooms[sheet] < needs[sheet]).collect();
        let marks = [SignShort, CountsShort, RowsShort, WeightsShort];
        let one = short.len() == 1 && ask.rooms[short[0]] + 1 == needs[short[0]];
        self.hit_if(marks[short[0]], one);
    }

    /// What is special about a refused contraction's selector and mode.
    fn refused(&mut self, site: &Site, contraction: &Contraction, number: u8) {
        use Mark::*;
        let selector = &contraction.selector;
        let (rows, weights) = (selector.rows.len(), selector.weights.len());
        let sum: u64 = selector.counts.iter().map(|&count| u64::from(count)).sum();
        let weight = |test: &dyn Fn(f64) -> bool| selector.weights.iter().any(|&x| test(x));
        let (mode, sign) = (contraction.mode, selector.sign);
        match number {
            1 => {
                self.hit_if(SumAbove, rows == weights && sum > rows as u64);
                self.hit_if(SumBelow, rows == weights && sum < rows as u64);
                let low = sum > rows as u64 && sum & 0xFFFF_FFFF == rows as u64;
                self.hit_if(SumLowBits, rows == weights && low);
                self.hit_if(RowsLonger, rows > weights && sum == rows as u64);
                self.hit_if(WeightsLonger, weights > rows && sum == rows as u64);
            }
            3 => {
                self.hit_if(WeightAbove, weight(&|x| x == above(READING_LIMIT)));
                self.hit_if(WeightBelow, weight(&|x| x == -above(READING_LIMIT)));
                self.hit_if(WeightNotFinite, weight(&|x| !x.is_finite()));
                self.hit_if(SignAbove, just_past(sign, READING_LIMIT));
                self.hit_if(SignNotFinite, !sign.is_finite());
            }
            4 => {
                self.hit_if(ModeAuto, mode == AUTO);
                self.hit_if(ModeNext, mode == 3);
                self.hit_if(ModeLowBits, mode > 0xFF && mode & 0xFF < AUTO);
            }
            5 => {
                let dim = rules::dim(site) as u32;
                let row = |test: &dyn Fn(u32) -> bool| selector.rows.iter().any(|&x| test(x));
                self.hit_if(RowAtDim, row(&|x| x == dim));
                self.hit_if(RowLowBits, row(&|x| x > 0xFFFF && x & 0xFFFF < dim));
                self.hit_if(RowGreatest, row(&|x| x == u32::MAX));
            }
            _ => {}
        }
    }

    fn first(&mut self, site: &Site, contraction: &Contraction, room: usize, number: u8) {
        use Mark::*;
        let (forward, adjoint) = (contraction.mode == FORWARD, contraction.mode == ADJOINT);
        let columns = contraction.columns;
        let dim = match &site.shape {
            Some(_) => rules::dim(site),
            None => return,
        };
        let (count, words) = (product(dim, columns), dim.saturating_mul(contraction.elements()));
        let most = u128::from(u64::MAX);
        match number {
            0 => {
                self.hit_if(FirstForward, forward && count > 0);
                self.hit_if(FirstAdjoint, adjoint && words > 0);
                self.hit_if(FirstNothing, forward && count > 0 && room == 0);
                self.hit_if(FirstExact, adjoint && words > 0 && room == words);
                self.hit_if(FirstLonger, adjoint && words > 0 && room > words);
                self.hit_if(FirstAnyColumns, adjoint && columns >= 1 << 63);
                self.hit_if(CountPast32, forward && count >= 1 << 32);
                self.hit_if(CountMost, forward && count + dim as u128 > most && dim > 1);
                self.hit_empty(EmptyMark::EmptyCount, dim == 0 && forward && columns >= 1 << 32);
            }
            1 if forward && site.held.lowest() == 0 && count > most => {
                self.hit_if(CountPast64, count - dim as u128 <= most);
                self.hit_if(ColumnsGreatest, columns == usize::MAX);
                self.hit_if(ColumnsWrap, count as u64 <= 8 * dim as u64);
            }
            7 => self.hit_if(FirstOneShort, room + 1 == words),
            _ => {}
        }
    }

    fn third(
        &mut self,
        site: &Site,
        contraction: &Contraction,
        parameter: &[f64],
        solved: &[f64],
        room: usize,
        held: Held,
    ) {
        use Mark::*;
        if site.held.lowest() > 0 {
            return;
        }
        let (dim, columns) = (rules::dim(site), contraction.columns);
        let words = product(dim, columns);
        let sides = if contraction.mode == ADJOINT { contraction.elements() } else { columns };
        let (due, given) = (product(dim, sides), solved.len() as u128);
        let served = rules::mode(contraction.mode).is_some();
        let any = |words: &[f64], test: &dyn Fn(f64) -> bool| words.iter().any(|&x| test(x));
        match held.lowest() {
            1 => {
                self.hit_if(ParameterOneShort, parameter.len() as u128 + 1 == words);
                self.hit_if(SolvedOneShort, served && given + 1 == due);
                self.hit_if(SolvedOneLong, served && given == due + 1);
                self.hit_if(ThirdMany, columns >= 1 << 32 && dim > 0);
                let wraps = |bits: u32| {
                    let low = words & ((1 << bits) - 1);
                    words != low && low <= parameter.len() as u128
                };
                self.hit_if(ThirdWrap, wraps(64) || wraps(32));
            }
            3 => {
                let front = &parameter[..words as usize];
                self.hit_if(ParameterAbove, any(front, &|x| just_past(x, PARAMETER_LIMIT)));
                self.hit_if(ParameterNotFinite, any(front, &|x| !x.is_finite()));
                self.hit_if(SolvedAbove, any(solved, &|x| just_past(x, SHEET_LIMIT)));
                self.hit_if(SolvedNotFinite, any(solved, &|x| !x.is_finite()));
            }
            7 => {
                let words = product(contraction.elements(), columns);
                self.hit_if(OutOneShort, room as u128 + 1 == words);
                self.hit_if(OutNothing, room == 0);
            }
            _ => {}
        }
    }

    fn without_rows(&mut self, site: &Site, contraction: &Contraction, number: u8) {
        use EmptyMark::*;
        if site.held.lowest() > 0 || rules::dim(site) > 0 {
            return;
        }
        let (elements, columns) = (contraction.elements(), contraction.columns);
        let words = product(elements, columns);
        let many = columns >= 1 << 32;
        self.hit_empty(EmptyForward, number == 0 && contraction.mode == FORWARD && words > 0);
        self.hit_empty(EmptyAdjoint, number == 0 && contraction.mode == ADJOINT && words > 0);
        self.hit_empty(EmptyMany, number == 0 && many);
        self.hit_empty(EmptyShort, number == 7 && many);
        self.hit_empty(EmptyWrap, number == 7 && words as u64 == 0);
    }

    /// What is special about an accepted third call.
    fn contracted(
        &mut self,
        contraction: &Contraction,
        parameter: &[f64],
        solved: &[f64],
        ask: &Ask,
        due: &Due,
    ) {
        use ModeMark::*;
        let mode = contraction.mode as usize;
        let (elements, columns) = (contraction.elements(), contraction.columns);
        let words = elements * columns;
        self.contracted[mode] += u64::from(words > 0);
        let front = match contraction.mode {
            FORWARD => solved.len(),
            _ if elements > 0 => solved.len() / elements * columns,
            _ => 0,
        };
        let (front, behind) = parameter.split_at(front.min(parameter.len()));
        let results: &[f64] = match due.fronts.first() {
            Some(Words::F64(results)) => results,
            _ => &[],
        };
        let any = |words: &[f64], test: &dyn Fn(f64) -> bool| words.iter().any(|&x| test(x));
        let at = |limit: f64| move |x: f64| x.abs() == limit;
        let mut hit = |mark: ModeMark, met: bool| self.modes[mode][mark as usize] += u64::from(met);
        hit(NoElements, elements == 0);
        hit(NoColumns, columns == 0);
        hit(Several, elements > 1 && columns > 1);
        hit(ManyWords, front.len() >= 10_000 && solved.len() >= 10_000);
        let longer = elements > 0 || contraction.mode == FORWARD;
        hit(ParameterBehind, longer && any(behind, &|x| !x.is_finite()));
        hit(ParameterAtLimit, words > 0 && any(front, &at(PARAMETER_LIMIT)));
        hit(ParameterMinusZero, words > 0 && any(front, &is_minus_zero));
        hit(SolvedAtLimit, words > 0 && any(solved, &at(SHEET_LIMIT)));
        hit(OutExact, words > 0 && ask.rooms[0] == words);
        hit(OutLonger, words > 0 && ask.rooms[0] > words);
        hit(OutMinusZero, any(results, &is_minus_zero));
        hit(OutNotZero, any(results, &|x| x != 0.0));
        if words > 0 {
            self.selected(contraction, mode);
        }
    }

    /// What is special about the selector of an accepted third call with words.
    fn selected(&mut self, contraction: &Contraction, mode: usize) {
        use ModeMark::*;
        let selector = &contraction.selector;
        let map = selector.map();
        let weight = |test: &dyn Fn(f64) -> bool| selector.weights.iter().any(|&x| test(x));
        let repeated = |entries: &Vec<(usize, f64)>| {
            (1..entries.len()).any(|at| entries[..at].iter().any(|entry| entry.0 == entries[at].0))
        };
        let unit = map.iter().all(|entries| entries.len() == 1 && entries[0].1 == 1.0);
        let sign = selector.sign;
        let mut hit = |mark: ModeMark, met: bool| self.modes[mode][mark as usize] += u64::from(met);
        hit(UnitRows, unit && map.len() > 1);
        hit(SeveralEntries, map.iter().any(|entries| entries.len() > 1));
        hit(RepeatedRow, map.iter().any(repeated));
        hit(WithoutEntries, map.iter().any(|entries| entries.is_empty()));
        hit(NegativeWeight, weight(&|x| x < 0.0));
        hit(ZeroWeight, weight(&|x| x == 0.0));
        hit(WeightAtLimit, weight(&|x| x.abs() == READING_LIMIT));
        hit(SignMinus, sign == -1.0);
        hit(SignOther, sign.abs() != 1.0);
        hit(SignAtLimit, sign.abs() == READING_LIMIT);
    }

    fn part(&mut self, ask: &Ask, due: &Due) {
        use Mark::*;
        let (mode, count, parameter, selection) = match &ask.call {
            Call::RightSide { mode, count, parameter, selection } => {
                (*mode, *count, parameter.len(), selection.len())
            }
            _ => return,
        };
        let (words, room) = (due.answer as usize, ask.rooms[0]);
        let sheet = if mode == ADJOINT { selection } else { parameter };
        let served = rules::mode(mode).is_some();
        self.hit_if(PartForward, mode == FORWARD && words > 0 && words == parameter);
        self.hit_if(PartAdjoint, mode == ADJOINT && words > 0 && words == selection);
        self.hit_if(PartFront, words > 0 && words < sheet);
        self.hit_if(PartPast, served && count == sheet + 1);
        self.hit_if(PartMost, served && count >= 1 << 61);
        let within = count > 0 && count <= parameter && count <= selection;
        self.hit_if(PartAuto, mode == AUTO && within);
        self.hit_if(PartUnknown, mode > AUTO && within);
        self.hit_if(PartExact, words > 0 && room == words);
        self.hit_if(PartLonger, words > 0 && room > words);
        self.hit_if(PartOneShort, room + 1 == words);
    }

    fn scale(&mut self, ask: &Ask, number: u8) {
        use Mark::*;
        let (operand, parameter, base) = match ask.call {
            Call::UnitScale { operand, parameter, base } => (operand, parameter, base),
            _ => return,
        };
        match number {
            0 => {
                self.scales[operand as usize][parameter as usize] += 1;
                self.hit_if(ScaleExact, ask.rooms[0] == 1);
                self.hit_if(ScaleLonger, ask.rooms[0] > 1);
                self.hit_if(BaseAtLow, base == BASE_LOW);
                self.hit_if(BaseAtHigh, base == BASE_HIGH);
            }
            3 => {
                self.hit_if(BaseBelowLow, base == below(BASE_LOW));
                self.hit_if(BaseAboveHigh, base == above(BASE_HIGH));
                self.hit_if(BaseNan, base.is_nan());
            }
            4 => {
                let past = |code: u32, known: u32| code > 0xFF && code & 0xFF < known;
                self.hit_if(ScaleOperand, operand == 13 && parameter < 19);
                self.hit_if(ScaleParameter, parameter == 19 && operand < 13);
                self.hit_if(ScaleLowBits, past(operand, 13) && past(parameter, 19));
            }
            _ => {}
        }
    }
}
