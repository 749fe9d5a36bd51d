//! Draws calls for parameter columns: whole blocks, lists in any order, and each refusal.

use crate::calls::Site;
use crate::paper::Count;
use crate::parameters::rules::{self, LINEAR, QUADRATIC, SERVED};
use crate::parameters::{export, Ask};
use crate::random::Rng;
use crate::solutions;

/// Up to so many words all columns of a parameter are asked at once.
const WHOLE_BLOCK: usize = 40_000;
/// The most columns of another list.
const FEW: usize = 8;
/// Words that a sheet may have, so that it has its place.
const MOST_WORDS: usize = export::ROOM / 8 - 64;

/// A sheet of so many words, exactly or somewhat longer.
pub fn roomy(rng: &mut Rng, words: usize) -> usize {
    words + if rng.percent(40) { rng.between(1, 9) } else { 0 }
}

/// A sheet that is one word short, several, or empty.
pub fn short(rng: &mut Rng, words: usize) -> usize {
    let missing = match rng.below(10) {
        0..=6 => 1,
        7..=8 => rng.between(2, 9),
        _ => words,
    };
    words.saturating_sub(missing)
}

/// A number of a parameter that isn't served.
pub fn unserved(rng: &mut Rng) -> u32 {
    let served = rng.pick(&SERVED).0;
    match rng.below(10) {
        0..=5 => rng.pick(&[1, 5, 7, 8, 9, 10, 11, 12, 13, 14, 15, 16]),
        6 => 19,
        7 => served + rng.pick(&[1 << 8, 1 << 16, 1 << 31]),
        8 => u32::MAX,
        _ => 20 + rng.below(1000) as u32,
    }
}

/// A column that a list of this length doesn't have.
pub fn outside(rng: &mut Rng, length: usize) -> u32 {
    let length = length as u32;
    let within = rng.below(length.max(1) as usize) as u32;
    match rng.below(10) {
        0..=4 => length,
        5 => length + rng.between(1, 1000) as u32,
        6 => (1 << 16) + within,
        7 => (1 << 31) + within,
        8 => u32::MAX - within,
        _ => u32::MAX,
    }
}

fn shuffle(rng: &mut Rng, columns: &mut [u32]) {
    for place in (1..columns.len()).rev() {
        columns.swap(place, rng.below(place + 1));
    }
}

/// Columns that the parameter serves: for a cost, those of generators without segments.
pub fn smooth(site: &Site, parameter: u32, count: Count) -> Vec<u32> {
    let all = 0..site.shape().count(count);
    let cost = rules::is_cost(parameter);
    all.filter(|&at| !cost || !rules::piecewise(site, at)).map(|at| at as u32).collect()
}

/// A few of these, in any order and some of them again.
fn few(rng: &mut Rng, from: &[u32]) -> Vec<u32> {
    if from.is_empty() {
        return Vec::new();
    }
    (0..rng.between(1, FEW)).map(|_| rng.pick(from)).collect()
}

/// A column put at the front, in the middle or at the end of a list.
fn put(rng: &mut Rng, columns: &mut Vec<u32>, column: u32) {
    let place = rng.pick(&[0, columns.len() / 2, columns.len()]);
    columns.insert(place, column);
}

/// A sound sheet's calls on an accepted network.
pub fn accepted(rng: &mut Rng, site: &Site, solution: &[u8]) -> Vec<Ask> {
    let dim = rules::dim(site);
    let mut asks = Vec::new();
    let mut push = |rng: &mut Rng, parameter: u32, columns: Vec<u32>, sheet: usize| {
        let (solution, behind) = (solution.to_vec(), rng.percent(50));
        asks.push(Ask { solution, parameter, columns, sheet: sheet.min(MOST_WORDS), behind });
    };
    for (parameter, count, _) in SERVED {
        let mut columns = smooth(site, parameter, count);
        if columns.len() * dim > WHOLE_BLOCK {
            columns = few(rng, &columns);
        }
        let sheet = roomy(rng, columns.len() * dim);
        push(rng, parameter, columns, sheet);
    }
    for _ in 0..2 {
        let (parameter, count, _) = rng.pick(&SERVED);
        let own = smooth(site, parameter, count);
        let again = few(rng, &own);
        let sheet = roomy(rng, again.len() * dim);
        push(rng, parameter, again, sheet);
        let mut columns = own;
        if columns.len() * dim <= WHOLE_BLOCK {
            shuffle(rng, &mut columns);
            let sheet = roomy(rng, columns.len() * dim);
            push(rng, parameter, columns, sheet);
        }
    }
    // One word short, or more.
    let (parameter, count, _) = rng.pick(&SERVED);
    let columns = few(rng, &smooth(site, parameter, count));
    let sheet = short(rng, columns.len() * dim);
    push(rng, parameter, columns, sheet);
    // No column.
    let parameter = if rng.percent(50) { rng.pick(&SERVED).0 } else { unserved(rng) };
    let sheet = rng.below(6);
    push(rng, parameter, vec![], sheet);
    // A parameter that isn't served, of elements that may be there or not.
    let columns: Vec<u32> = (0..rng.between(1, 3)).map(|_| rng.below(4) as u32).collect();
    let words = columns.len() * dim;
    let sheet = if rng.percent(50) { roomy(rng, words) } else { short(rng, words) };
    let parameter = unserved(rng);
    push(rng, parameter, columns, sheet);
    // An element that isn't there, and generators with piecewise costs, each alone or together.
    for form in 0..3 {
        let (parameter, columns) = refused(rng, site, form);
        let words = columns.len() * dim;
        let sheet = if rng.percent(60) { roomy(rng, words) } else { short(rng, words) };
        push(rng, parameter, columns, sheet);
    }
    // So many columns that the words of all, counted in 32 bits, would have room.
    if dim > 4500 && rng.percent(20) {
        let columns = vec![0; (1usize << 32) / dim + 1];
        let (parameter, sheet) = (rng.pick(&[0, 4, 6, 17]), dim * rng.between(1, 4));
        push(rng, parameter, columns, sheet);
    }
    asks
}

/// A list with an element that isn't there (0), with a piecewise cost (1), with both (2).
fn refused(rng: &mut Rng, site: &Site, form: usize) -> (u32, Vec<u32>) {
    let generators = site.shape().count(Count::Generators);
    let broken = (0..generators).filter(|&at| rules::piecewise(site, at));
    let broken: Vec<u32> = broken.map(|at| at as u32).collect();
    if form == 0 || broken.is_empty() {
        let (parameter, count, _) = rng.pick(&SERVED);
        let mut columns = few(rng, &smooth(site, parameter, count));
        let column = outside(rng, site.shape().count(count));
        put(rng, &mut columns, column);
        return (parameter, columns);
    }
    let parameter = rng.pick(&[QUADRATIC, LINEAR]);
    let mut columns = few(rng, &smooth(site, parameter, Count::Generators));
    let column = rng.pick(&broken);
    put(rng, &mut columns, column);
    if form == 2 {
        let column = outside(rng, generators);
        put(rng, &mut columns, column);
    }
    (parameter, columns)
}

/// A call on any network whose slices have whole words, its sheet in order or not.
pub fn any(rng: &mut Rng, site: &Site) -> Ask {
    let mut solution = solutions::draw(rng, site, true);
    solution.truncate(solution.len() / 8 * 8);
    let dim = site.shape.as_ref().map_or(20, |_| rules::dim(site));
    let (parameter, columns) = match rng.below(10) {
        0..=1 => (unserved(rng), (0..rng.below(3)).map(|_| rng.below(4) as u32).collect()),
        _ if site.shape.is_none() => (rng.pick(&SERVED).0, vec![0; rng.below(3)]),
        2..=4 => refused(rng, site, 1),
        form @ 5..=6 => refused(rng, site, 2 * (form - 5)),
        _ => {
            let (parameter, count, _) = rng.pick(&SERVED);
            (parameter, few(rng, &smooth(site, parameter, count)))
        }
    };
    let words = columns.len() * dim;
    let sheet = if rng.percent(70) { roomy(rng, words) } else { short(rng, words) };
    let sheet = sheet.min(MOST_WORDS);
    Ask { solution, parameter, columns, sheet, behind: rng.percent(50) }
}
