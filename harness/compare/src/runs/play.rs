//! Plays a run call by call beside the job book, then looks at it as a whole: on the words that
//! it left, in one call, and beside another run to the same readings.

use crate::paper::{self, double};
use crate::random::Rng;
use crate::runs::book::{Book, Due, Triplet};
use crate::runs::draw::{Idle, Scenario};
use crate::runs::exports::{self, Cut, Way};
use crate::runs::marks::RunMark;
use crate::runs::memory::{triplets, RunMemory, READINGS};
use crate::runs::table::{self, Cell, Change};
use crate::runs::tally::{Called, Tally};

/// What a run did that it must not.
#[derive(Clone, Debug)]
pub struct Failure {
    /// What was looked at.
    pub check: String,
    pub expected: String,
    pub got: String,
}

type Checked<T> = Result<T, Failure>;

fn hold(check: &str, difference: Option<(String, String)>) -> Checked<()> {
    match difference {
        None => Ok(()),
        Some((expected, got)) => Err(Failure { check: check.to_string(), expected, got }),
    }
}

fn hold_answer(check: &str, due: u64, answer: u64) -> Checked<()> {
    let show = |answer: u64| format!("number {}, count {}", answer % 256, answer / 256);
    hold(check, (answer != due).then(|| (show(due), show(answer))))
}

fn hold_list(check: &str, due: &[Triplet], list: &[Triplet]) -> Checked<()> {
    let show = |list: &[Triplet], place: usize| match list.get(place) {
        Some((row, column, bits)) => {
            format!("triplet {} ({}, {}, {:016x})", place, row, column, bits)
        }
        None => format!("{} triplets", list.len()),
    };
    let longest = due.len().max(list.len());
    let place = (0..longest).find(|&place| due.get(place) != list.get(place));
    hold(check, place.map(|place| (show(due, place), show(list, place))))
}

/// A run's answers.
#[derive(Default)]
struct Log {
    /// Number and count of each change that a typed call can make.
    lines: Vec<(u32, u32)>,
    accepted: Vec<Change>,
    /// The last accepted count.
    count: usize,
}

/// Plays a run and checks all that it does.
pub fn play(scenario: &Scenario, memory: &mut RunMemory, tally: &mut Tally) -> Checked<()> {
    let mut book = Book::new(scenario);
    memory.fill(scenario);
    tally.start(scenario, &book);
    let first = matrix(scenario, memory, &book, tally)?;
    let log = steps(scenario, memory, &mut book, tally)?;
    let last = matrix(scenario, memory, &book, tally)?;
    let list = triplets(&memory.sheets, log.count);
    if !log.accepted.is_empty() {
        hold_list("the sheets beside the matrix call", &last, &list)?;
        at_end(scenario, &book, &log, &first, &list, tally)?;
    }
    if scenario.whole() {
        in_one_call(scenario, memory, &book, &log, tally)?;
        idle(scenario, memory, tally)?;
        cut_short(scenario, memory, tally)?;
        twin(scenario, memory, &book, &log, &list, tally)?;
    }
    Ok(())
}

/// The matrix call on the network as the memory holds it; no list where it is refused.
fn matrix(
    scenario: &Scenario,
    memory: &mut RunMemory,
    book: &Book,
    tally: &mut Tally,
) -> Checked<Vec<Triplet>> {
    const CHECK: &str = "the matrix call";
    if !scenario.whole() {
        return Ok(Vec::new());
    }
    memory.fill_matrix(book.site.shape.as_ref().map_or(0, |shape| shape.matrix_most()));
    let number = book.matrix_held.lowest();
    tally.made(Called::Matrix, number);
    let due = u64::from(number) + 256 * book.list.len() as u64;
    hold_answer(CHECK, due, exports::matrix(memory))?;
    let list = triplets(&memory.matrix, book.list.len());
    hold_list(CHECK, &book.list, &list)?;
    hold(CHECK, memory.difference(scenario, &book.site.lent.readings, &book.sheets))?;
    Ok(list)
}

/// Each change by itself: its answer, and every word that it leaves.
fn steps(
    scenario: &Scenario,
    memory: &RunMemory,
    book: &mut Book,
    tally: &mut Tally,
) -> Checked<Log> {
    let mut log = Log::default();
    let mut short = false;
    for (place, step) in scenario.steps.iter().enumerate() {
        let check = format!("change {} of {}", place + 1, scenario.steps.len());
        let answer = exports::change(memory, step.change, step.way);
        if let Way::Ragged(..) = step.way {
            tally.call(step, 1);
            hold_answer(&check, 1, answer)?;
        } else {
            let due = book.step(step.change);
            tally.call(step, due.number);
            hold_answer(&check, due.word(), answer)?;
            note(scenario, book, step.change, &due, short, tally);
            short |= due.number == 7;
            log.lines.push((u32::from(due.number), due.count as u32));
            if due.number == 0 {
                log.accepted.push(step.change);
                log.count = due.count as usize;
            }
        }
        hold(&check, memory.difference(scenario, &book.site.lent.readings, &book.sheets))?;
    }
    Ok(log)
}

fn note(
    scenario: &Scenario,
    book: &Book,
    change: Change,
    due: &Due,
    short: bool,
    tally: &mut Tally,
) {
    match &due.before {
        Some(before) => {
            tally.accepted(&scenario.lent.readings, book, before, change);
            tally.hit_if(RunMark::AfterShort, short);
        }
        None => tally.refused(book, change, due),
    }
}

/// The claims about a whole run with an accepted change, on the words of the first list and of
/// the last.
fn at_end(
    scenario: &Scenario,
    book: &Book,
    log: &Log,
    first: &[Triplet],
    list: &[Triplet],
    tally: &mut Tally,
) -> Checked<()> {
    let starts = book.site.oracle().block_starts();
    let named = |&change: &Change| table::named(&book.site, &starts, change);
    let mut cells: Vec<Cell> = log.accepted.iter().flat_map(named).collect();
    cells.sort_unstable();
    cells.dedup();
    let (before, after) = (outside(first, &cells), outside(list, &cells));
    hold_list("cells outside the named ones", &before, &after)?;
    tally.hit_if(RunMark::Accepted, true);
    tally.hit_if(RunMark::Outside, !before.is_empty());
    let listed = holds_list(scenario, first);
    tally.hit_if(RunMark::Listed, listed);
    tally.hit_if(RunMark::Unlisted, !listed);
    if book.site.lent.readings == scenario.lent.readings {
        hold_list("the list with all old bits back", first, list)?;
        tally.hit_if(RunMark::Back, true);
    }
    Ok(())
}

/// The triplets outside these cells, cell by cell, those of a cell in list order.
fn outside(list: &[Triplet], cells: &[Cell]) -> Vec<Triplet> {
    let cell = |triplet: &Triplet| (triplet.0, triplet.1);
    let named = |triplet: &&Triplet| cells.binary_search(&cell(triplet)).is_ok();
    let mut outside: Vec<Triplet> =
        list.iter().filter(|triplet| !named(triplet)).copied().collect();
    outside.sort_by_key(cell);
    outside
}

/// Whether the sheets begin with this list before the first change.
fn holds_list(scenario: &Scenario, list: &[Triplet]) -> bool {
    let rows: Vec<u8> = list.iter().flat_map(|triplet| triplet.0.to_le_bytes()).collect();
    let cols: Vec<u8> = list.iter().flat_map(|triplet| triplet.1.to_le_bytes()).collect();
    let values: Vec<u8> = list.iter().flat_map(|triplet| triplet.2.to_le_bytes()).collect();
    let fronts = [rows, cols, values];
    scenario.sheets.iter().zip(&fronts).all(|(sheet, front)| sheet.starts_with(front))
}

fn words_of(changes: &[Change]) -> Vec<u32> {
    changes.iter().flat_map(|change| change.words()).collect()
}

/// All changes in one call, from the same start: the same answers and the same words.
fn in_one_call(
    scenario: &Scenario,
    memory: &mut RunMemory,
    book: &Book,
    log: &Log,
    tally: &mut Tally,
) -> Checked<()> {
    const CHECK: &str = "all changes in one call";
    let mut rng = Rng::new(scenario.seed, 1);
    let changes = words_of(&scenario.changes());
    let mut sheet = |longer: usize| -> Vec<u32> {
        (0..log.lines.len() + longer).map(|_| rng.next() as u32).collect()
    };
    let (mut numbers, mut counted) = (sheet(scenario.longer[0]), sheet(scenario.longer[1]));
    let (old_numbers, old_counted) = (numbers.clone(), counted.clone());
    for (place, &(number, count)) in log.lines.iter().enumerate() {
        numbers[place] = number;
        counted[place] = count;
    }
    // On bytes each change decodes the network anew: every fourth run is enough of that.
    let forms = if scenario.seed % 4 == 0 { &WHOLE[..] } else { &WHOLE[..1] };
    for &form in forms {
        memory.fill(scenario);
        memory.fill_changes(&changes, &old_numbers, &old_counted);
        run_changes(CHECK, memory, form, Cut { more: scenario.longer, ..Cut::default() }, 0, tally)?;
        hold(CHECK, memory.changes_difference(&changes, &numbers, &counted))?;
        hold(CHECK, memory.difference(scenario, &book.site.lent.readings, &book.sheets))?;
    }
    tally.hit_if(RunMark::WholeExact, scenario.longer == [0, 0]);
    tally.hit_if(RunMark::WholeLonger, scenario.longer != [0, 0]);
    Ok(())
}

/// A call on a whole run that makes no change: nothing moves.
fn idle(scenario: &Scenario, memory: &mut RunMemory, tally: &mut Tally) -> Checked<()> {
    const CHECK: &str = "a run's call that makes no change";
    let mut changes = words_of(&scenario.changes());
    let count = changes.len() / 3;
    if count == 0 && scenario.idle != Idle::Empty {
        return Ok(());
    }
    let (mut numbers, mut counted) = (vec![11; count], vec![12; count]);
    let due = match scenario.idle {
        Idle::NumbersShort => {
            numbers.pop();
            7
        }
        Idle::CountedShort => {
            counted.pop();
            7
        }
        Idle::Ragged(more) => {
            changes.truncate(changes.len() - 3 + more);
            1
        }
        Idle::RaggedShort => {
            changes.push(0);
            numbers.clear();
            counted.clear();
            1
        }
        Idle::Empty => {
            changes.clear();
            0
        }
    };
    for form in WHOLE {
        memory.fill(scenario);
        memory.fill_changes(&changes, &numbers, &counted);
        run_changes(CHECK, memory, form, Cut::default(), due, tally)?;
        hold(CHECK, memory.changes_difference(&changes, &numbers, &counted))?;
        hold(CHECK, memory.difference(scenario, &scenario.lent.readings, &scenario.sheets))?;
    }
    tally.idle(scenario.idle);
    Ok(())
}

/// The forms of a call on a whole run.
const WHOLE: [Called; 2] = [Called::Whole, Called::WholeOnBytes];

/// A call on a whole run of which this number is due; what is cut is cut on bytes alone.
fn run_changes(
    check: &str,
    memory: &RunMemory,
    form: Called,
    cut: Cut,
    due: u8,
    tally: &mut Tally,
) -> Checked<()> {
    tally.made(form, due);
    let answer = match form {
        Called::WholeOnBytes => exports::run_changes_by_bytes(memory, cut),
        _ => exports::run_changes(memory),
    };
    hold_answer(check, u64::from(due), answer)
}

/// A call on bytes with a slice that is no whole number of its elements: changes and sheets for their
/// answers are refused at once; with any other, each change is refused by 1.
fn cut_short(scenario: &Scenario, memory: &mut RunMemory, tally: &mut Tally) -> Checked<()> {
    const CHECK: &str = "a run's call on bytes, one slice cut";
    let mut rng = Rng::new(scenario.seed, 3);
    let changes = words_of(&scenario.changes());
    let count = changes.len() / 3;
    let (old, lent) = (vec![13; count], scenario.lent.slices());
    let mut cut = Cut::default();
    let place = rng.below(8);
    let (due, mark) = match place {
        0..=2 if count == 0 => return Ok(()),
        0 => (1, RunMark::BytesRagged),
        1 | 2 => (7, RunMark::BytesShort),
        _ => (0, RunMark::BytesCut),
    };
    if place < 3 {
        cut.own[place] = if place == 0 { rng.between(1, 11) } else { rng.between(1, 4) };
    } else {
        let (slice, size) = (place - 3, [4, 8, 4, 8, 8][place - 3]);
        let length = lent.get(slice).map_or(scenario.solution.len(), |bytes| bytes.len());
        if length == 0 {
            return Ok(());
        }
        cut.inputs[slice] = rng.between(1, size - 1);
    }
    memory.fill(scenario);
    memory.fill_changes(&changes, &old, &old);
    run_changes(CHECK, memory, Called::WholeOnBytes, cut, due, tally)?;
    let answered = |word: u32| if due == 0 { vec![word; count] } else { old.clone() };
    hold(CHECK, memory.changes_difference(&changes, &answered(1), &answered(0)))?;
    hold(CHECK, memory.difference(scenario, &scenario.lent.readings, &scenario.sheets))?;
    tally.hit_if(mark, true);
    Ok(())
}

/// Another run from the same start, in one call: if it ends on the same readings, it leaves the
/// same list.
fn twin(
    scenario: &Scenario,
    memory: &mut RunMemory,
    book: &Book,
    log: &Log,
    list: &[Triplet],
    tally: &mut Tally,
) -> Checked<()> {
    const CHECK: &str = "another run to the same readings";
    if log.accepted.is_empty() {
        return Ok(());
    }
    let changes = twin_changes(scenario, book, &log.accepted);
    let blank = vec![0; changes.len()];
    memory.fill(scenario);
    memory.fill_changes(&words_of(&changes), &blank, &blank);
    run_changes(CHECK, memory, WHOLE[usize::from(scenario.seed % 8 == 1)], Cut::default(), 0, tally)?;
    let numbers = paper::words(memory.numbers.bytes());
    let accepted = numbers.iter().rposition(|&number| number == 0);
    let alike = memory.network[READINGS].bytes() == &book.site.lent.readings[..];
    if let Some(last) = accepted.filter(|_| alike) {
        let count = paper::word(memory.counted.bytes(), last) as usize;
        hold_answer(CHECK, 256 * log.count as u64, 256 * count as u64)?;
        hold_list(CHECK, list, &triplets(&memory.sheets, count))?;
        tally.hit_if(RunMark::Twin, true);
    }
    Ok(())
}

/// The last accepted change of each reading in another order, some after a detour. A change
/// that leads back to the reading's first bits may be left out, but for the last one. All come
/// twice: what didn't fit the sheets at first may do so then.
fn twin_changes(scenario: &Scenario, book: &Book, accepted: &[Change]) -> Vec<Change> {
    let mut rng = Rng::new(scenario.seed, 2);
    let mut last: Vec<Change> = accepted.to_vec();
    last.reverse();
    last.sort_by_key(|change| change.head);
    last.dedup_by_key(|change| change.head);
    let idle = |change: &Change| {
        let place = change.place(book.site.shape()).expect("an accepted change names a reading");
        double(&scenario.lent.readings, place).to_bits() == change.bits()
    };
    let mut order = Vec::with_capacity(last.len());
    while !last.is_empty() {
        let next = rng.below(last.len());
        let change = last.swap_remove(next);
        if last.is_empty() && order.is_empty() || !idle(&change) || rng.percent(50) {
            order.push(change);
        }
    }
    let detours = order.iter().map(|change| rng.pick(accepted).aimed_at(*change));
    let detours: Vec<Change> = detours.take(3).collect();
    [&detours[..], &order[..], &order[..]].concat()
}
