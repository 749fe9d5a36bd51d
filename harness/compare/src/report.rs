//! What a run has met: tallies with a floor for each, and the smallest mismatch.

use crate::calls::{Args, Length, Op, OPS};
use crate::damage::{Damage, Place};
use crate::paper::{Block, Count, Lent, BLOCKS, SLICE_NAMES};
use crate::program_marks::{self, ProgramMark, PROGRAM_MARKS};
use crate::states;

/// Each row of the coverage table is met at least this often.
pub const FLOOR: u64 = 500;
/// Each row about solution sheets and about the program is met at least this often.
pub const SHEET_FLOOR: u64 = 1000;

macro_rules! marks {
    ($(#[$doc:meta])* $all:ident of $name_of_all:ident:
        $($title:literal { $($mark:ident => $name:literal,)* })*) => {
        $(#[$doc])*
        #[derive(Clone, Copy, Debug, PartialEq, Eq)]
        pub enum $name_of_all { $($($mark,)*)* }

        pub const $all: &[(&str, &str)] = &[$($(($title, $name),)*)*];
    };
}
pub(crate) use marks;

marks! {
    /// Things that a run must have met.
    MARKS of Mark:
    "good networks" {
        SelfLoop => "branch from a bus to itself",
        ParallelBranches => "parallel branches",
        RepeatedReference => "reference listed twice",
        PiecewiseCost => "generator with piecewise cost",
        OpenBranch => "branch with b or sw zero",
        VanishingBranch => "branch whose product underflows to zero",
        SubnormalReading => "subnormal reading",
        NegativeZeroReading => "reading -0",
        ReadingNearTolerance => "reading at the tolerance or beside it",
    }
    "limits of readings" {
        ReadingAtPlus => "reading at +10^12: accepted",
        ReadingAtMinus => "reading at -10^12: accepted",
        ReadingAbovePlus => "reading just above +10^12: refused",
        ReadingBelowMinus => "reading just below -10^12: refused",
        CoefficientAtPlus => "coefficient at +10^12: accepted",
        CoefficientAtMinus => "coefficient at -10^12: accepted",
        CoefficientAbovePlus => "coefficient just above +10^12: refused",
        CoefficientBelowMinus => "coefficient just below -10^12: refused",
        BaseAtLow => "base at 0.001: accepted",
        BaseBelowLow => "base just below 0.001: refused",
        BaseAtHigh => "base at 10^6: accepted",
        BaseAboveHigh => "base just above 10^6: refused",
        QuietNan => "reading a quiet NaN: refused",
        SignallingNan => "reading a signalling NaN: refused",
        NegativeNan => "reading a NaN with sign: refused",
        PlusInfinity => "reading +infinity: refused",
        MinusInfinity => "reading -infinity: refused",
        AbsentLimitRefused => "slot of an absent row limit out of range: refused",
    }
    "shed caps" {
        ShedOff => "shedding off",
        DemandNegative => "demand negative",
        DemandMinusZero => "demand -0",
        DemandPlusZero => "demand +0",
        DemandBelowTolerance => "demand just below the tolerance",
        DemandAtTolerance => "demand at the tolerance",
        DemandAboveTolerance => "demand just above the tolerance",
        DemandAtLimit => "demand at 10^12",
    }
    "row kinds" {
        RowNone => "none",
        RowUpper => "upper",
        RowLower => "lower",
        RowBoth => "both",
        RowEquality => "equality",
        EqualityOfZeros => "equality of -0 and +0",
        BothJustApart => "both, one double apart",
        OneSidedEqualSlots => "one limit, both slots equal",
    }
    "generator costs" {
        CostQuadratic => "quadratic",
        CostPiecewise => "several segments",
        CostOneSegment => "one segment",
        PowerAtPlus => "power at +10^12: accepted",
        PowerAtMinus => "power at -10^12: accepted",
        PowerJustAbove => "power just above 10^12: refused",
        PowerNan => "power NaN: refused",
        PowerInfinite => "power infinite: refused",
    }
    "rows evaluated" {
        RowWithoutTerms => "no terms",
        RowOfFlows => "flow terms only",
        RowOfGeneration => "generation terms only",
        RowOfBoth => "both kinds of terms",
        FlowAtLimit => "f at 10^15 or -10^15: accepted",
        DispatchAtLimit => "pg at 10^15 or -10^15: accepted",
        FlowJustAbove => "f just above 10^15: refused",
        DispatchJustAbove => "pg just above 10^15: refused",
        FlowNan => "f NaN: refused",
        DispatchNan => "pg NaN: refused",
        FlowInfinite => "f infinite: refused",
        DispatchInfinite => "pg infinite: refused",
        FlowShort => "f one short: refused",
        DispatchShort => "pg one short: refused",
        FlowLong => "f one long: refused",
        DispatchLong => "pg one long: refused",
        FlowRagged => "f not whole words: refused",
        DispatchRagged => "pg not whole words: refused",
        RecordShort => "one record short: refused",
        RecordLong => "one record long: refused",
        RecordRagged => "not whole records: refused",
    }
    "indexes" {
        IndexFirst => "first: accepted",
        IndexLast => "last, not first: accepted",
        IndexAtLength => "at the length: refused",
        IndexGreatest => "greatest word: refused",
        IndexPast32 => "low 32 bits in range: refused",
    }
    "lent sheets" {
        SheetExact => "exactly full",
        SheetLonger => "longer than the result",
        SheetLeftover => "leftover bytes after the result",
        SheetOneShort => "one word short: refused",
        SheetShortLeftover => "one word short but for some bytes: refused",
        SheetEmpty => "empty, result not: refused",
        RowsShortAlone => "only the rows short: refused",
        ColumnsShortAlone => "only the columns short: refused",
        ValuesShortAlone => "only the values short: refused",
        SheetEmptyResult => "empty result in an empty sheet",
    }
    "susceptance lists" {
        ListEmpty => "no triplet",
        ListCancelled => "triplet whose sum is zero",
        ListSummed => "fewer triplets than four a branch",
    }
}

marks! {
    /// Things that a run must have met in each call that takes a solution sheet and that
    /// they matter to. A threshold counts where its side shows in the result.
    SHEET_MARKS of SheetMark:
    "networks" {
        SheetSelfLoop => "branch from a bus to itself",
        SheetParallel => "parallel branches",
        SheetRepeatedReference => "reference listed twice",
        SheetSeveralReferences => "several references",
        SheetLargest => "all counts at their limits",
        SheetNoBus => "no bus",
    }
    "buses" {
        BusFixed => "fixed",
        BusAtZero => "at zero",
        BusAtCap => "at cap",
        BusBetween => "between",
        BusFixedFolds => "fixed, mu_ub not zero",
        CapJustBelow => "cap just below the tolerance",
        CapAt => "cap at the tolerance",
        CapJustAbove => "cap just above the tolerance",
        ShedJustBelow => "shed just below the tolerance",
        ShedAt => "shed at the tolerance",
        ShedJustAbove => "shed just above the tolerance",
        RoomJustBelow => "cap less shed just below the tolerance",
        RoomAt => "cap less shed at the tolerance",
        RoomJustAbove => "cap less shed just above the tolerance",
    }
    "upper angle limits" {
        AngmaxSlack => "slack",
        AngmaxNotPositive => "not slack, dual not positive",
        AngmaxKept => "not slack, dual kept",
        AngmaxJustBelow => "slack just below the tolerance, dual positive",
        AngmaxAt => "slack at the tolerance, dual positive",
        AngmaxJustAbove => "slack just above the tolerance, dual positive",
        AngmaxPlusZero => "not slack, dual +0",
        AngmaxMinusZero => "not slack, dual -0",
        AngmaxNegative => "not slack, dual negative",
    }
    "lower angle limits" {
        AngminSlack => "slack",
        AngminNotPositive => "not slack, dual not positive",
        AngminKept => "not slack, dual kept",
        AngminJustBelow => "slack just below the tolerance, dual positive",
        AngminAt => "slack at the tolerance, dual positive",
        AngminJustAbove => "slack just above the tolerance, dual positive",
        AngminPlusZero => "not slack, dual +0",
        AngminMinusZero => "not slack, dual -0",
        AngminNegative => "not slack, dual negative",
    }
    "segments" {
        SegmentSlack => "slack",
        SegmentNotPositive => "not slack, dual not positive",
        SegmentKept => "not slack, dual kept",
        SegmentJustBelow => "slack just below the tolerance, dual positive",
        SegmentAt => "slack at the tolerance, dual positive",
        SegmentJustAbove => "slack just above the tolerance, dual positive",
        SegmentPlusZero => "not slack, dual +0",
        SegmentMinusZero => "not slack, dual -0",
        SegmentNegative => "not slack, dual negative",
    }
    "linear rows" {
        LinearNone => "no limit",
        LinearUpper => "upper",
        LinearLower => "lower",
        LinearBoth => "both",
        LinearEquality => "equality",
        LinearEqualityDual => "equality with flow terms, dual not zero",
    }
    "upper row limits" {
        UpperSlack => "slack",
        UpperNotPositive => "not slack, dual not positive",
        UpperKept => "not slack, dual kept",
        UpperJustBelow => "slack just below the tolerance, dual positive",
        UpperAt => "slack at the tolerance, dual positive",
        UpperJustAbove => "slack just above the tolerance, dual positive",
        UpperPlusZero => "not slack, dual +0",
        UpperMinusZero => "not slack, dual -0",
        UpperNegative => "not slack, dual negative",
    }
    "lower row limits" {
        LowerSlack => "slack",
        LowerNotPositive => "not slack, minus the dual not positive",
        LowerKept => "not slack, minus the dual kept",
        LowerJustBelow => "slack just below the tolerance, dual negative",
        LowerAt => "slack at the tolerance, dual negative",
        LowerJustAbove => "slack just above the tolerance, dual negative",
        LowerPlusZero => "not slack, minus the dual +0",
        LowerMinusZero => "not slack, minus the dual -0",
        LowerNegative => "not slack, minus the dual negative",
    }
    "solution sheets" {
        WordAtPlus => "word at +10^15: accepted",
        WordAtMinus => "word at -10^15: accepted",
        WordAbovePlus => "word just above +10^15: refused",
        WordBelowMinus => "word just below -10^15: refused",
        WordNan => "word NaN: refused",
        WordInfinite => "word infinite: refused",
        SolutionShort => "one word short: refused",
        SolutionLong => "one word long: refused",
        SolutionRagged => "not whole words: refused",
        SolutionEmpty => "empty: refused",
    }
    "outputs" {
        OutExact => "exactly full, not empty: accepted",
        OutLonger => "longer than the result: accepted",
        OutLeftover => "leftover bytes after the result: accepted",
        OutOneShort => "one word short: refused",
        OutShortLeftover => "one word short but for some bytes: refused",
        OutEmpty => "empty, result not: refused",
    }
    "lists" {
        OutRowsShort => "only the rows short: refused",
        OutColumnsShort => "only the columns short: refused",
        OutValuesShort => "only the values short: refused",
        OutRoomy => "room for any list: refused for the sheet",
    }
    "exempt words" {
        ExemptNan => "linear value NaN: accepted",
        ExemptInfinite => "linear value infinite: accepted",
        ExemptAbove => "linear value finite, above 10^15: accepted",
        ExemptObjectiveNan => "objective NaN: accepted",
        ExemptObjectiveInfinite => "objective infinite: accepted",
        ExemptObjectiveAbove => "objective finite, above 10^15: accepted",
    }
}

const MARK_COUNT: usize = MARKS.len();

const LEVELS: [&str; 3] = ["at 0", "at 1", "at its limit"];

#[derive(Clone, Default)]
struct DamageTally {
    /// Cases with this damage alone, by place.
    alone: [u64; 3],
    paired: u64,
}

pub struct Coverage {
    marks: [u64; MARK_COUNT],
    /// For each call, what its solution sheets were.
    sheets: Vec<Vec<u64>>,
    /// For each call, refusals for a broken word, by its block.
    blocks: Vec<[u64; BLOCKS]>,
    /// For each call, what its programs were.
    programs: Vec<Vec<u64>>,
    levels: [[u64; 3]; 7],
    damages: Vec<DamageTally>,
    /// How often each pair of damages was made.
    pairs: Vec<u64>,
    /// For each call, answers by number.
    answers: Vec<[u64; 8]>,
    /// For each call, how often the first number was answered where the second held too.
    over: Vec<[[u64; 8]; 8]>,
}

/// A row of the coverage table.
pub struct Row {
    title: String,
    name: String,
    hits: u64,
    /// For a damage, the cases that have it together with another.
    paired: Option<u64>,
    note: String,
    floor: u64,
}

impl Coverage {
    pub fn new(damages: usize) -> Coverage {
        Coverage {
            marks: [0; MARK_COUNT],
            sheets: vec![vec![0; SHEET_MARKS.len()]; OPS.len()],
            blocks: vec![[0; BLOCKS]; OPS.len()],
            programs: vec![vec![0; PROGRAM_MARKS.len()]; OPS.len()],
            levels: [[0; 3]; 7],
            damages: vec![DamageTally::default(); damages],
            pairs: vec![0; damages * (damages - 1) / 2],
            answers: vec![[0; 8]; OPS.len()],
            over: vec![[[0; 8]; 8]; OPS.len()],
        }
    }

    pub fn hit(&mut self, mark: Mark) {
        self.marks[mark as usize] += 1;
    }

    pub fn hit_if(&mut self, mark: Mark, met: bool) {
        if met {
            self.hit(mark);
        }
    }

    pub fn hit_sheet(&mut self, op: usize, mark: SheetMark, met: bool) {
        self.sheets[op][mark as usize] += u64::from(met);
    }

    pub fn hit_block(&mut self, op: usize, block: Block) {
        self.blocks[op][block as usize] += 1;
    }

    pub fn hit_program(&mut self, op: usize, mark: ProgramMark, met: bool) {
        self.programs[op][mark as usize] += u64::from(met);
    }

    pub fn hit_count(&mut self, count: Count, value: usize) {
        let levels = &mut self.levels[count as usize];
        levels[0] += u64::from(value == 0);
        levels[1] += u64::from(value == 1);
        levels[2] += u64::from(value == count.limit());
    }

    pub fn hit_alone(&mut self, damage: usize, place: Place) {
        self.damages[damage].alone[place as usize] += 1;
    }

    pub fn hit_pair(&mut self, pair: usize, first: usize, second: usize) {
        self.pairs[pair] += 1;
        self.damages[first].paired += 1;
        self.damages[second].paired += 1;
    }

    pub fn hit_answer(&mut self, op: usize, number: u8) {
        self.answers[op][number as usize] += 1;
    }

    /// How often a call had its result.
    pub fn accepted(&self, op: usize) -> u64 {
        self.answers[op][0]
    }

    pub fn hit_over(&mut self, op: usize, answered: u8, held: u8) {
        self.over[op][answered as usize][held as usize] += 1;
    }

    fn rows(&self, damages: &[Damage]) -> Vec<Row> {
        let mut rows = Vec::new();
        for (damage, tally) in damages.iter().zip(&self.damages) {
            let [first, middle, last] = tally.alone;
            let note = if damage.placed() {
                format!("first {}, middle {}, last {}", first, middle, last)
            } else {
                String::new()
            };
            let number = damage.number();
            rows.push(Row {
                title: format!("number {}: cases with the damage alone, with another", number),
                name: damage.name(),
                hits: first + middle + last,
                paired: Some(tally.paired),
                note,
                floor: FLOOR,
            });
        }
        for count in Count::ALL {
            for (level, name) in LEVELS.iter().enumerate() {
                let hits = self.levels[count as usize][level];
                rows.push(row("counts", format!("{} {}", count.name(), name), hits, FLOOR));
            }
        }
        for ((title, name), &hits) in MARKS.iter().zip(&self.marks) {
            rows.push(row(title, name.to_string(), hits, FLOOR));
        }
        self.answer_rows(&mut rows);
        self.sheet_rows(&mut rows);
        self.program_rows(&mut rows);
        rows
    }

    fn program_rows(&self, rows: &mut Vec<Row>) {
        let programmed = || OPS.iter().enumerate().filter(|(_, op)| op.programmed());
        for (mark, (title, name)) in PROGRAM_MARKS.iter().enumerate() {
            for (place, op) in programmed().filter(|(_, op)| program_marks::matters(op, title)) {
                let hits = self.programs[place][mark];
                let title = format!("calls on the program: {}", title);
                rows.push(row(&title, format!("{}: {}", op.name, name), hits, SHEET_FLOOR));
            }
        }
    }

    fn sheet_rows(&self, rows: &mut Vec<Row>) {
        let solved = || OPS.iter().enumerate().filter(|(_, op)| op.solved());
        for (mark, (title, name)) in SHEET_MARKS.iter().enumerate() {
            for (place, op) in solved().filter(|(_, op)| states::matters(op.name, title)) {
                let hits = self.sheets[place][mark];
                let title = format!("calls on a solution sheet: {}", title);
                rows.push(row(&title, format!("{}: {}", op.name, name), hits, SHEET_FLOOR));
            }
        }
        for (place, op) in solved() {
            for block in Block::ALL {
                let exempt = [Block::LinearValues, Block::Objective].contains(&block);
                if exempt && op.lists[0].1 == Length::SolutionFront {
                    continue;
                }
                let name = format!("{}: word of {} broken", op.name, block.name());
                let hits = self.blocks[place][block as usize];
                rows.push(row("solution sheets refused", name, hits, SHEET_FLOOR));
            }
        }
    }

    fn answer_rows(&self, rows: &mut Vec<Row>) {
        for (place, op) in OPS.iter().enumerate() {
            for &number in op.numbers {
                let hits = self.answers[place][number as usize];
                let name = format!("{}: {}", op.name, number);
                rows.push(row("answers", name, hits, FLOOR));
            }
        }
        for (place, op) in OPS.iter().enumerate() {
            for (answered, held) in op.rivals() {
                let hits = self.over[place][answered as usize][held as usize];
                let name = format!("{}: {} before {}", op.name, answered, held);
                rows.push(row("lowest of several", name, hits, FLOOR));
            }
        }
    }

    /// Prints the table and answers how many rows stay below the floor.
    pub fn print(&self, damages: &[Damage]) -> usize {
        let low = print_rows(&self.rows(damages));
        let least = self.pairs.iter().min().copied().unwrap_or(0);
        let met = self.pairs.iter().filter(|&&hits| hits > 0).count();
        println!("pairs of damages");
        println!("  {} of {} met, each at least {} times", met, self.pairs.len(), least);
        low
    }
}

/// Prints rows under their titles and answers how many stay below their floors.
pub fn print_rows(rows: &[Row]) -> usize {
    let mut title = "";
    let mut low = 0;
    for row in rows {
        if row.title != title {
            println!("{}", row.title);
            title = &row.title;
        }
        let below = row.hits < row.floor || row.paired.map_or(false, |hits| hits < row.floor);
        low += usize::from(below);
        let warning = if below { "  BELOW THE FLOOR" } else { "" };
        let paired = row.paired.map_or(String::new(), |hits| hits.to_string());
        let line = format!("  {:<64} {:>8} {:>6}  {}", row.name, row.hits, paired, row.note);
        println!("{}{}", line.trim_end(), warning);
    }
    low
}

pub fn row(title: &str, name: String, hits: u64, floor: u64) -> Row {
    Row { title: title.to_string(), name, hits, paired: None, note: String::new(), floor }
}

/// A call's calls, those of them that went wrong, and the accepted networks on which it had its
/// result at least once.
#[derive(Clone, Copy, Default)]
pub struct CallTally {
    pub calls: u64,
    pub mismatches: u64,
    pub networks: u64,
}

/// A row for each call. Those on the program have their results on at least `networks` networks.
pub fn call_rows(tallies: &[CallTally], networks: u64) -> Vec<Row> {
    let of_call = |(op, tally): (&Op, &CallTally)| Row {
        title: "calls: accepted networks with a result".to_string(),
        name: op.name.to_string(),
        hits: tally.networks,
        paired: None,
        note: String::new(),
        floor: if op.programmed() { networks } else { 0 },
    };
    OPS.iter().zip(tallies).map(of_call).collect()
}

/// A call that did not do what the paper and the original Rust say.
#[derive(Clone)]
pub struct Mismatch {
    pub op: usize,
    pub lent: Lent,
    pub args: Args,
    /// Bytes lent for each output.
    pub sheets: Vec<usize>,
    /// The number that was due.
    pub number: u8,
    pub expected: String,
    pub got: String,
    /// What the run was doing, so that it can be done again.
    pub origin: String,
}

impl Mismatch {
    pub fn size(&self) -> usize {
        let lists: usize = self.args.lists.iter().map(|list| list.len()).sum();
        self.lent.total() + lists + self.sheets.iter().sum::<usize>()
    }

    pub fn print(&self) {
        let op: &Op = &OPS[self.op];
        println!("mismatch in {} ({})", op.name, self.origin);
        for (name, bytes) in SLICE_NAMES.iter().zip(self.lent.slices()) {
            println!("  {} ({} bytes): {}", name, bytes.len(), hex(bytes));
        }
        if op.index.is_some() {
            println!("  index: {}", self.args.index);
        }
        if op.raw {
            println!("  raw reading's bits: {:016x}", self.args.bits);
        }
        for ((name, _), bytes) in op.lists.iter().zip(&self.args.lists) {
            println!("  {} ({} bytes): {}", name, bytes.len(), hex(bytes));
        }
        for ((name, _), bytes) in op.sheets.iter().zip(&self.sheets) {
            println!("  {}: {} bytes lent", name, bytes);
        }
        println!("  expected: {}", self.expected);
        println!("  got:      {}", self.got);
    }
}

/// Bytes in hexadecimal, in groups of four.
pub fn hex(bytes: &[u8]) -> String {
    let groups: Vec<String> = bytes
        .chunks(4)
        .map(|group| group.iter().map(|byte| format!("{:02x}", byte)).collect())
        .collect();
    groups.join(" ")
}
