//! What the runs have met: tallies with a floor for each.

use crate::calls::Site;
use crate::generate::{above, below};
use crate::paper::{double, tolerance, word, Block, Field, Wire, ALLOW_SHED, READING_LIMIT};
use crate::report::{row, Row};
use crate::runs::book::{Before, Book, Due, Triplet};
use crate::runs::draw::{Idle, Scenario, Step};
use crate::runs::exports::Way;
use crate::runs::marks::{RunMark, RUN_MARKS};
use crate::runs::table::{self, Cell, Change, CELLS, KINDS};
use crate::table::Cases;

/// Each row about runs of changes is met at least this often.
pub const RUN_FLOOR: u64 = 1000;
/// So many runs there are at least.
const RUNS_FLOOR: u64 = 20_000;
/// Each pair of numbers that hold together is met at least this often.
const OVER_FLOOR: u64 = 500;
/// Lists up to this length are searched for cells that moved.
const SEARCHED: usize = 2000;

/// Pairs of numbers that hold together, the first of which is answered.
const RIVALS: [(usize, usize); 13] = [
    (1, 3),
    (1, 4),
    (1, 5),
    (1, 7),
    (2, 3),
    (2, 4),
    (2, 5),
    (2, 7),
    (3, 4),
    (3, 5),
    (3, 7),
    (4, 7),
    (5, 7),
];

/// The exports that a run calls.
#[derive(Clone, Copy, Debug, PartialEq, Eq)]
pub enum Called {
    Matrix,
    OnBytes,
    Typed,
    Whole,
    WholeOnBytes,
}

impl Called {
    const NAMES: [&'static str; 5] =
        ["sens_kkt_triplets", "capi_change", "site_change", "site_run_changes", "capi_run_changes"];

    fn of(way: Way) -> Called {
        match way {
            Way::Words => Called::Typed,
            Way::Bytes(_) | Way::Ragged(..) => Called::OnBytes,
        }
    }
}

pub struct Tally {
    pub runs: u64,
    cases: [Cases; Called::NAMES.len()],
    /// The export that was called last.
    last: Called,
    /// Changes called one by one.
    pub calls: u64,
    kinds: [u64; 9],
    answers: [u64; 8],
    over: [[u64; 8]; 8],
    /// For each kind, how often each of its cells moved.
    cells: [Vec<u64>; 9],
    marks: [u64; RUN_MARKS.len()],
}

impl Tally {
    pub fn new() -> Tally {
        Tally {
            runs: 0,
            cases: Default::default(),
            last: Called::Matrix,
            calls: 0,
            kinds: [0; 9],
            answers: [0; 8],
            over: [[0; 8]; 8],
            cells: CELLS.map(|cells| vec![0; cells.len()]),
            marks: [0; RUN_MARKS.len()],
        }
    }

    /// What was done with each export.
    pub fn cases(&self) -> impl Iterator<Item = (&'static str, Cases)> + '_ {
        Called::NAMES.into_iter().zip(self.cases)
    }

    /// A call of which this number is due.
    pub fn made(&mut self, export: Called, number: u8) {
        self.last = export;
        let cases = &mut self.cases[export as usize];
        cases.run += 1;
        cases.refused += u64::from(number > 0);
    }

    /// A run that went wrong, which showed after the last call.
    pub fn missed(&mut self) {
        self.cases[self.last as usize].mismatches += 1;
    }

    pub fn hit_if(&mut self, mark: RunMark, met: bool) {
        self.marks[mark as usize] += u64::from(met);
    }

    pub fn rows(&self) -> Vec<Row> {
        let marks = RUN_MARKS.iter().zip(&self.marks);
        let mut rows = vec![row("runs of changes", "runs".to_string(), self.runs, RUNS_FLOOR)];
        rows.extend(marks.map(|(&(title, name), &hits)| row(title, name.into(), hits, RUN_FLOOR)));
        for number in [0, 1, 2, 3, 4, 5, 7] {
            let hits = self.answers[number];
            rows.push(row("changes answered", number.to_string(), hits, RUN_FLOOR));
        }
        for (low, high) in RIVALS {
            let name = format!("{} before {}", low, high);
            rows.push(row("changes answered, of several", name, self.over[low][high], OVER_FLOOR));
        }
        for (place, field) in KINDS.iter().enumerate() {
            let name = format!("{} {}", place + 1, field.name());
            rows.push(row("kinds accepted", name, self.kinds[place], RUN_FLOOR));
        }
        for (place, cells) in CELLS.iter().enumerate() {
            for (cell, hits) in cells.iter().zip(&self.cells[place]) {
                let (line, column) = (cell.0.name(), cell.1.name());
                let name = format!("{} {}: ({}, {})", place + 1, KINDS[place].name(), line, column);
                rows.push(row("named cells seen to move", name, *hits, RUN_FLOOR));
            }
        }
        rows
    }

    /// What is special about a run before its first change.
    pub fn start(&mut self, scenario: &Scenario, book: &Book) {
        self.runs += 1;
        self.hit_if(RunMark::Many, scenario.steps.len() > 50);
        let refused = book.matrix_held.lowest() > 0;
        self.hit_if(RunMark::Refused, refused);
        if refused {
            return;
        }
        let [rows, cols, values] = &book.sheets;
        let lengths = [rows.len() / 4, cols.len() / 4, values.len() / 8];
        let first = book.list.len();
        let all = |test: &dyn Fn(usize) -> bool| lengths.iter().all(|&length| test(length));
        self.hit_if(RunMark::Exact, all(&|length| length == first));
        self.hit_if(RunMark::Short, book.room() < first);
        self.hit_if(RunMark::Longer, all(&|length| length > first));
        self.hit_if(RunMark::Unequal, !all(&|length| length == lengths[0]));
        self.hit_if(RunMark::Ample, book.room() >= book.site.shape().matrix_most());
    }

    /// What is special about a call, whatever it answers.
    pub fn call(&mut self, step: &Step, number: u8) {
        self.made(Called::of(step.way), number);
        self.calls += 1;
        self.answers[usize::from(number)] += 1;
        match step.way {
            Way::Words => self.hit_if(RunMark::Typed, true),
            Way::Bytes(more) => {
                self.hit_if(RunMark::OnBytes, true);
                self.hit_if(RunMark::Leftover, number == 0 && more != [0; 3]);
            }
            Way::Ragged(slice, _) => {
                let marks = [
                    RunMark::RaggedWiring,
                    RunMark::RaggedReadings,
                    RunMark::RaggedIndex,
                    RunMark::RaggedCoefficient,
                    RunMark::RaggedSolution,
                ];
                self.hit_if(marks[slice], true);
            }
        }
    }

    /// What is special about a change that the book refuses, which is left as it was.
    pub fn refused(&mut self, book: &Book, change: Change, due: &Due) {
        for (low, high) in RIVALS {
            let both = usize::from(due.number) == low && due.held.has(high as u8);
            self.over[low][high] += u64::from(both);
        }
        if book.matrix_held.lowest() > 0 {
            return;
        }
        match due.number {
            3 => self.value(change.value()),
            4 => {
                let kind = change.kind();
                self.hit_if(RunMark::KindZero, kind == 0);
                self.hit_if(RunMark::KindTen, kind == 10);
                self.hit_if(RunMark::KindMiddle, matches!(kind, 11..=14));
                self.hit_if(RunMark::KindLast, kind == 15);
            }
            5 => self.index(book, change),
            _ => self.short(book, due.needed),
        }
    }

    fn value(&mut self, value: f64) {
        self.hit_if(RunMark::ValueNan, value.is_nan());
        self.hit_if(RunMark::ValueInfinite, value.is_infinite());
        self.hit_if(RunMark::ValueAbovePlus, value == above(READING_LIMIT));
        self.hit_if(RunMark::ValueBelowMinus, value == -above(READING_LIMIT));
    }

    fn index(&mut self, book: &Book, change: Change) {
        let field = change.field().expect("5 comes after 4");
        let range = book.site.shape().field_range(field);
        let index = change.index();
        self.hit_if(RunMark::IndexAtLength, index == range.len());
        let readings = book.site.lent.readings.len() / 8;
        self.hit_if(RunMark::IndexOnward, range.start + index < readings);
        self.hit_if(RunMark::IndexGreatest, index == 0x0FFF_FFFF);
        let low = index & 0xFFFF;
        self.hit_if(RunMark::IndexLowBits, index > 0xFFFF && low < range.len());
    }

    /// Which sheets the list of a change refused as short doesn't fit.
    fn short(&mut self, book: &Book, needed: usize) {
        let [rows, cols, values] = &book.sheets;
        let lengths = [rows.len() / 4, cols.len() / 4, values.len() / 8];
        let marks = [RunMark::RowsShort, RunMark::ColumnsShort, RunMark::ValuesShort];
        for (sheet, mark) in marks.into_iter().enumerate() {
            let only = (0..3).all(|place| (lengths[place] < needed) == (place == sheet));
            self.hit_if(mark, only);
        }
        self.hit_if(RunMark::ShortByOne, book.room() + 1 == needed);
    }

    /// What is special about an accepted change, which the book has made.
    pub fn accepted(&mut self, first: &[u8], book: &Book, before: &Before, change: Change) {
        let kind = change.kind() as usize - 1;
        self.kinds[kind] += 1;
        let place = change.place(book.site.shape()).expect("an accepted change names a reading");
        let old = double(&before.site.lent.readings, place);
        let (length, former) = (book.list.len(), before.list.len());
        self.hit_if(RunMark::ListGrows, length > former);
        self.hit_if(RunMark::ListShrinks, length < former);
        self.hit_if(RunMark::ListMoves, length == former && book.list != before.list);
        let same = old.to_bits() == change.bits();
        self.hit_if(RunMark::SameBits, same);
        let back = !same && double(first, place).to_bits() == change.bits();
        self.hit_if(RunMark::FirstBits, back);
        self.hit_if(RunMark::AtPlus, change.value() == READING_LIMIT);
        self.hit_if(RunMark::AtMinus, change.value() == -READING_LIMIT);
        self.hit_if(RunMark::MinusZero, change.bits() == (-0.0f64).to_bits());
        match KINDS[kind] {
            Field::Demand => self.demand(book, before, change.index()),
            Field::Angmin => self.angle(&ANGMIN, book, old, change),
            Field::Angmax => self.angle(&ANGMAX, book, old, change),
            Field::Sw => self.zero(RunMark::BranchOpened, RunMark::BranchClosed, old, change),
            Field::B => self.zero(RunMark::SusceptanceGone, RunMark::SusceptanceBack, old, change),
            Field::Cq => self.zero(RunMark::CostGone, RunMark::CostBack, old, change),
            _ => {}
        }
        self.branch(&book.site, change);
        if length.max(former) <= SEARCHED {
            self.moved(book, before, change);
        }
    }

    fn zero(&mut self, gone: RunMark, back: RunMark, old: f64, change: Change) {
        let new = change.value();
        self.hit_if(gone, old != 0.0 && new == 0.0);
        self.hit_if(back, old == 0.0 && new != 0.0);
    }

    fn demand(&mut self, book: &Book, before: &Before, bus: usize) {
        if word(&book.site.lent.wiring, ALLOW_SHED) == 0 {
            return;
        }
        let at = tolerance();
        let (old, cap) = (before.site.oracle().shed_cap(bus), book.site.oracle().shed_cap(bus));
        let shed = sheet_word(book, Block::Psh, bus);
        self.hit_if(RunMark::BusFixed, old >= at && cap < at);
        self.hit_if(RunMark::BusFreed, old < at && cap >= at);
        self.hit_if(RunMark::CapJustBelow, cap == below(at));
        self.hit_if(RunMark::CapAt, cap == at);
        self.hit_if(RunMark::CapJustAbove, cap == above(at));
        let open = cap >= at && shed >= at;
        self.hit_if(RunMark::RoomJustBelow, open && cap - shed == below(at));
        self.hit_if(RunMark::RoomAt, open && cap - shed == at);
        self.hit_if(RunMark::RoomJustAbove, open && cap - shed == above(at));
    }

    /// Marks in the order of `ANGMIN`.
    fn angle(&mut self, marks: &[RunMark; 5], book: &Book, old: f64, change: Change) {
        let (i, j) = table::ends(&book.site, change).expect("an angle limit is a branch's");
        let apart = sheet_word(book, Block::Va, i) - sheet_word(book, Block::Va, j);
        let upper = change.field() == Some(Field::Angmax);
        let slack = |limit: f64| if upper { limit - apart } else { apart - limit };
        let block = if upper { Block::GammaUb } else { Block::GammaLb };
        if sheet_word(book, block, change.index()) <= 0.0 {
            return;
        }
        let at = tolerance();
        let (old, new) = (slack(old), slack(change.value()));
        self.hit_if(marks[0], old > at && new <= at);
        self.hit_if(marks[1], old <= at && new > at);
        self.hit_if(marks[2], new == below(at));
        self.hit_if(marks[3], new == at);
        self.hit_if(marks[4], new == above(at));
    }

    fn branch(&mut self, site: &Site, change: Change) {
        if !matches!(change.field(), Some(Field::Sw | Field::B)) {
            return;
        }
        let (i, j) = table::ends(site, change).expect("a breaker is a branch's");
        self.hit_if(RunMark::SelfLoop, i == j);
        let branches = site.shape().wire_range(Wire::BrFrom).len();
        let same = |e: usize| {
            let ends = (site.wire(Wire::BrFrom, e) as usize, site.wire(Wire::BrTo, e) as usize);
            e != change.index() && (ends == (i, j) || ends == (j, i))
        };
        self.hit_if(RunMark::Parallel, (0..branches).any(same));
    }

    /// Which of the change's cells hold other values than before. A branch from a bus to
    /// itself names fewer cells and is left out.
    fn moved(&mut self, book: &Book, before: &Before, change: Change) {
        if table::ends(&book.site, change).map_or(false, |(i, j)| i == j) {
            return;
        }
        let cells = table::named(&book.site, &book.site.oracle().block_starts(), change);
        let (old, new) = (values_at(&before.list, &cells), values_at(&book.list, &cells));
        for (place, hits) in self.cells[change.kind() as usize - 1].iter_mut().enumerate() {
            *hits += u64::from(old[place] != new[place]);
        }
    }

    pub fn idle(&mut self, idle: Idle) {
        self.hit_if(RunMark::NumbersShort, idle == Idle::NumbersShort);
        self.hit_if(RunMark::CountedShort, idle == Idle::CountedShort);
        self.hit_if(RunMark::Ragged, matches!(idle, Idle::Ragged(_)));
        self.hit_if(RunMark::RaggedShort, idle == Idle::RaggedShort);
        self.hit_if(RunMark::Empty, idle == Idle::Empty);
    }
}

const ANGMIN: [RunMark; 5] = [
    RunMark::AngminKept,
    RunMark::AngminDropped,
    RunMark::AngminJustBelow,
    RunMark::AngminAt,
    RunMark::AngminJustAbove,
];
const ANGMAX: [RunMark; 5] = [
    RunMark::AngmaxKept,
    RunMark::AngmaxDropped,
    RunMark::AngmaxJustBelow,
    RunMark::AngmaxAt,
    RunMark::AngmaxJustAbove,
];

fn sheet_word(book: &Book, block: Block, place: usize) -> f64 {
    book.solution[book.site.shape().blocks.range(block).start + place]
}

/// "its values are those of its triplets in list order", for each of these cells.
fn values_at(list: &[Triplet], cells: &[Cell]) -> Vec<Vec<u64>> {
    let mut values = vec![Vec::new(); cells.len()];
    for &(row, column, bits) in list {
        for (cell, values) in cells.iter().zip(&mut values) {
            if *cell == (row, column) {
                values.push(bits);
            }
        }
    }
    values
}
