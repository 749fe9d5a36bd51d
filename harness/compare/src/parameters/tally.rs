//! What the calls for parameter columns have met: tallies with a floor for each.

use crate::calls::Site;
use crate::generate::{above, below};
use crate::paper::{double, tolerance, Field, Held, Wire};
use crate::parameters::rules::{
    self, CONSTRAINT_LIMIT, DEMAND, LINE_LIMIT, SERVED, SUSCEPTANCE, SWITCHING,
};
use crate::parameters::Ask;
use crate::report::{marks, row, Row};

/// Each row is met at least this often.
const PARAMETER_FLOOR: u64 = 1000;
/// Each pair of numbers that hold together is met at least this often.
const OVER_FLOOR: u64 = 500;
/// Lists longer than any network's are met at least this often.
const LONG_FLOOR: u64 = 20;

/// Pairs of numbers that can hold together, the first of which is answered. A parameter that
/// isn't served has no elements.
const RIVALS: [(usize, usize); 19] = [
    (1, 2),
    (1, 3),
    (1, 4),
    (1, 5),
    (1, 6),
    (1, 7),
    (2, 3),
    (2, 4),
    (2, 5),
    (2, 6),
    (2, 7),
    (3, 4),
    (3, 5),
    (3, 6),
    (3, 7),
    (4, 7),
    (5, 6),
    (5, 7),
    (6, 7),
];

marks! {
    /// Things that the calls must have met.
    COLUMN_MARKS of ColumnMark:
    "parameter columns: lists" {
        Repeated => "a column twice: accepted",
        Shuffled => "columns not in their order: accepted",
        Empty => "no column, parameter served: accepted",
        EmptyUnserved => "no column, parameter not served: accepted",
        AtLength => "a column at the length: refused",
        LowBits => "a column whose low 16 bits are in range: refused",
        Greatest => "column 2^32 - 1: refused",
        OutsideFirst => "first column out of range: refused",
        OutsideLast => "last column of several out of range: refused",
        UnservedNamed => "a parameter of the Rust that is not served: refused",
        UnservedNext => "parameter 19: refused",
        UnservedLowBits => "a parameter whose low 8 bits are served: refused",
    }
    "parameter columns: sheets" {
        Exact => "exactly full, not empty: accepted",
        Longer => "longer than the columns: accepted",
        OneShort => "one word short: refused",
        Nothing => "empty, columns not: refused",
        Exempt => "linear value or objective not finite: accepted",
    }
    "parameter columns: entries" {
        DemandFixed => "demand: bus without shedding",
        DemandJustBelow => "demand: shed cap just below the tolerance",
        DemandAt => "demand: shed cap at the tolerance, dual not zero",
        DemandJustAbove => "demand: shed cap just above the tolerance, dual not zero",
        DemandFree => "demand: bus with shedding, its dual not zero",
        LowerFlow => "line limit: lower dual not zero",
        UpperFlow => "line limit: upper dual not zero",
        SusceptanceLoop => "series susceptance: branch from a bus to itself",
        SusceptanceEntry => "series susceptance: an entry not zero",
        SwitchingLoop => "switching: branch from a bus to itself",
        SwitchingLower => "switching: lower angle dual kept, entry not zero",
        SwitchingUpper => "switching: upper angle dual kept, entry not zero",
        LimitNone => "constraint limit: no limit",
        LimitUpper => "constraint limit: upper, its dual not zero",
        LimitLower => "constraint limit: lower, its dual not zero",
        LimitBoth => "constraint limit: both",
        LimitEquality => "constraint limit: equality",
    }
}

pub struct Tally {
    pub calls: u64,
    pub accepted_networks: u64,
    pub damaged_networks: u64,
    answers: [u64; 8],
    over: [[u64; 8]; 8],
    /// For each served parameter, accepted calls with a column, and those with all columns.
    served: [[u64; 2]; SERVED.len()],
    marks: [u64; COLUMN_MARKS.len()],
    long: u64,
}

impl Tally {
    pub fn new() -> Tally {
        Tally {
            calls: 0,
            accepted_networks: 0,
            damaged_networks: 0,
            answers: [0; 8],
            over: [[0; 8]; 8],
            served: [[0; 2]; SERVED.len()],
            marks: [0; COLUMN_MARKS.len()],
            long: 0,
        }
    }

    pub fn refused(&self) -> u64 {
        self.calls - self.answers[0]
    }

    fn hit_if(&mut self, mark: ColumnMark, met: bool) {
        self.marks[mark as usize] += u64::from(met);
    }

    pub fn rows(&self) -> Vec<Row> {
        let mut rows = Vec::new();
        for (served, hits) in SERVED.iter().zip(&self.served) {
            let title = "parameter columns: accepted";
            rows.push(row(title, served.2.to_string(), hits[0], PARAMETER_FLOOR));
            let name = format!("{}, all its columns", served.2);
            rows.push(row(title, name, hits[1], PARAMETER_FLOOR));
        }
        for (number, &hits) in self.answers.iter().enumerate() {
            let title = "parameter columns: answers";
            rows.push(row(title, number.to_string(), hits, PARAMETER_FLOOR));
        }
        for (low, high) in RIVALS {
            let (title, name) =
                ("parameter columns: lowest of several", format!("{} before {}", low, high));
            rows.push(row(title, name, self.over[low][high], OVER_FLOOR));
        }
        let marks = COLUMN_MARKS.iter().zip(&self.marks);
        rows.extend(
            marks.map(|(&(title, name), &hits)| row(title, name.into(), hits, PARAMETER_FLOOR)),
        );
        let long = "words of all columns pass 2^32: refused".to_string();
        rows.push(row("parameter columns: long lists", long, self.long, LONG_FLOOR));
        rows
    }

    /// What is special about a call with these numbers and columns.
    pub fn call(&mut self, site: &Site, ask: &Ask, held: Held, front: &[f64]) {
        self.calls += 1;
        let number = held.lowest();
        self.answers[usize::from(number)] += 1;
        for high in number + 1..8 {
            let both = number > 0 && held.has(high);
            self.over[usize::from(number)][usize::from(high)] += u64::from(both);
        }
        match number {
            0 => self.accepted(site, ask, front),
            4 => {
                self.hit_if(ColumnMark::UnservedNamed, ask.parameter < 19);
                self.hit_if(ColumnMark::UnservedNext, ask.parameter == 19);
                let low = ask.parameter & 0xFF;
                self.hit_if(ColumnMark::UnservedLowBits, rules::served(low).is_some());
            }
            5 => self.outside(site, ask),
            7 => {
                let words = ask.columns.len() * rules::dim(site);
                self.hit_if(ColumnMark::OneShort, ask.sheet + 1 == words);
                self.hit_if(ColumnMark::Nothing, ask.sheet == 0);
                self.long += u64::from(words >= 1 << 32);
            }
            _ => {}
        }
    }

    fn outside(&mut self, site: &Site, ask: &Ask) {
        let count = rules::served(ask.parameter).expect("5 comes after 4");
        let length = site.shape().count(count);
        let any = |test: &dyn Fn(usize) -> bool| ask.columns.iter().any(|&at| test(at as usize));
        self.hit_if(ColumnMark::AtLength, any(&|at| at == length));
        self.hit_if(ColumnMark::LowBits, any(&|at| at > 0xFFFF && (at & 0xFFFF) < length));
        self.hit_if(ColumnMark::Greatest, any(&|at| at == u32::MAX as usize));
        let (first, last) = (ask.columns[0] as usize, ask.columns[ask.columns.len() - 1] as usize);
        self.hit_if(ColumnMark::OutsideFirst, first >= length);
        self.hit_if(ColumnMark::OutsideLast, ask.columns.len() > 1 && last >= length);
    }

    fn accepted(&mut self, site: &Site, ask: &Ask, front: &[f64]) {
        let columns = &ask.columns;
        let served = SERVED.iter().position(|served| served.0 == ask.parameter);
        self.hit_if(ColumnMark::Empty, columns.is_empty() && served.is_some());
        self.hit_if(ColumnMark::EmptyUnserved, columns.is_empty() && served.is_none());
        self.hit_if(ColumnMark::Exact, ask.sheet == front.len() && ask.sheet > 0);
        self.hit_if(ColumnMark::Longer, ask.sheet > front.len() && !front.is_empty());
        let mut last = site.shape().blocks.front()..ask.solution.len() / 8;
        let exempt = last.any(|at| !double(&ask.solution, at).is_finite());
        self.hit_if(ColumnMark::Exempt, exempt && !columns.is_empty());
        let place = match served {
            Some(place) if !columns.is_empty() => place,
            _ => return,
        };
        let length = site.shape().count(SERVED[place].1);
        let all = columns.len() == length && columns.iter().zip(0..).all(|(&at, due)| at == due);
        self.served[place][0] += 1;
        self.served[place][1] += u64::from(all);
        let mut sorted = columns.clone();
        sorted.sort_unstable();
        self.hit_if(ColumnMark::Shuffled, sorted != *columns);
        self.hit_if(ColumnMark::Repeated, sorted.windows(2).any(|two| two[0] == two[1]));
        // Rows without limits and nothing else give columns without words.
        let dim = front.len() / columns.len();
        for (place, &at) in columns.iter().enumerate() {
            let column = &front[dim * place..dim * (place + 1)];
            self.column(site, ask.parameter, at as usize, column);
        }
    }

    /// What is special about one column.
    fn column(&mut self, site: &Site, parameter: u32, at: usize, column: &[f64]) {
        use ColumnMark::*;
        let entries = || column.iter().filter(|&&entry| entry != 0.0).count();
        match parameter {
            DEMAND => {
                // Beside the balance's entry there is the dual's.
                let (cap, limit) = (site.oracle().shed_cap(at), tolerance());
                self.hit_if(DemandFixed, cap == 0.0);
                self.hit_if(DemandJustBelow, cap == below(limit));
                self.hit_if(DemandAt, cap == limit && entries() > 1);
                self.hit_if(DemandJustAbove, cap == above(limit) && entries() > 1);
                self.hit_if(DemandFree, entries() > 1);
            }
            LINE_LIMIT => {
                let starts = site.oracle().block_starts();
                self.hit_if(LowerFlow, column[starts.lam_lb + at] != 0.0);
                self.hit_if(UpperFlow, column[starts.lam_ub + at] != 0.0);
            }
            SUSCEPTANCE | SWITCHING => self.branch(site, parameter, at, column),
            CONSTRAINT_LIMIT => {
                let equal = site.reading(Field::UpperMw, at) == site.reading(Field::LowerMw, at);
                let mask = site.wire(Wire::RowMasks, at);
                self.hit_if(LimitNone, mask == 0);
                self.hit_if(LimitUpper, mask == 1 && entries() > 0);
                self.hit_if(LimitLower, mask == 2 && entries() > 0);
                self.hit_if(LimitBoth, mask == 3 && !equal);
                self.hit_if(LimitEquality, mask == 3 && equal);
            }
            _ => {}
        }
    }

    fn branch(&mut self, site: &Site, parameter: u32, at: usize, column: &[f64]) {
        use ColumnMark::*;
        let same = site.wire(Wire::BrFrom, at) == site.wire(Wire::BrTo, at);
        if parameter == SUSCEPTANCE {
            self.hit_if(SusceptanceLoop, same);
            self.hit_if(SusceptanceEntry, column.iter().any(|&entry| entry != 0.0));
            return;
        }
        let starts = site.oracle().block_starts();
        self.hit_if(SwitchingLoop, same);
        self.hit_if(SwitchingLower, column[starts.gamma_lb + at] != 0.0);
        self.hit_if(SwitchingUpper, column[starts.gamma_ub + at] != 0.0);
    }
}
