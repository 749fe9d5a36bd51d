//! Draws runs: a network with its solution sheet, list sheets of any length, and changes.

use crate::abi::GUARD;
use crate::calls::{self, Site};
use crate::damage::{damaged, Damage, Place};
use crate::generate;
use crate::paper::{bytes_of_doubles, doubles, Lent, Shape};
use crate::random::Rng;
use crate::runs::book::{lay, list_of, matrix_held, Triplet};
use crate::runs::changes;
use crate::runs::exports::Way;
use crate::runs::table::Change;
use crate::solutions;

#[derive(Clone, Copy, Debug)]
pub struct Step {
    pub change: Change,
    pub way: Way,
}

/// A call on a whole run that makes no change.
#[derive(Clone, Copy, Debug, PartialEq, Eq)]
pub enum Idle {
    /// One word too few for the numbers.
    NumbersShort,
    /// One word too few for the counts.
    CountedShort,
    /// One word more than whole changes, or two.
    Ragged(usize),
    /// A word more than whole changes, and no word for numbers and counts.
    RaggedShort,
    /// No change at all.
    Empty,
}

impl Idle {
    const ALL: [Idle; 6] = [
        Idle::NumbersShort,
        Idle::CountedShort,
        Idle::Ragged(1),
        Idle::Ragged(2),
        Idle::RaggedShort,
        Idle::Empty,
    ];
}

/// A run and all that it is lent.
#[derive(Clone, Debug)]
pub struct Scenario {
    pub lent: Lent,
    pub solution: Vec<u8>,
    /// Rows, columns and values.
    pub sheets: [Vec<u8>; 3],
    /// Canaries behind the slices that calls write: none, or `GUARD`.
    pub behind: usize,
    pub steps: Vec<Step>,
    /// Words more than changes for the numbers and counts of the run in one call.
    pub longer: [usize; 2],
    pub idle: Idle,
    /// What the run is checked with beside itself is drawn from this.
    pub seed: u64,
}

impl Scenario {
    pub fn size(&self) -> usize {
        let sheets: usize = self.sheets.iter().map(|sheet| sheet.len()).sum();
        self.lent.total() + self.solution.len() + sheets + 12 * self.steps.len()
    }

    /// Whether every slice has whole words, so that typed calls can be lent it.
    pub fn whole(&self) -> bool {
        whole(&self.lent, &self.solution)
    }

    /// The changes that a typed call can make.
    pub fn changes(&self) -> Vec<Change> {
        let ragged = |step: &&Step| matches!(step.way, Way::Ragged(..));
        self.steps.iter().filter(|step| !ragged(step)).map(|step| step.change).collect()
    }
}

/// The bench network with its list in the sheets: "Kind 10: number 4. Kind 2, index 1: number
/// 5", and "fmax to 6".
pub fn bench() -> Scenario {
    let (lent, solution) = calls::bench();
    let list = list_of(&Site::new(lent.clone()), &solution);
    let mut sheets = [4, 4, 8].map(|size| vec![0; size * list.len()]);
    lay(&mut sheets, &list);
    let changes = [(10, 0, 6.0), (2, 1, 6.0), (2, 0, 6.0)];
    let step =
        |(kind, index, value)| Step { change: Change::new(kind, index, value), way: Way::Words };
    Scenario {
        lent,
        solution: bytes_of_doubles(&solution),
        sheets,
        behind: GUARD,
        steps: changes.map(step).to_vec(),
        longer: [0, 0],
        idle: Idle::Empty,
        seed: 0,
    }
}

fn whole(lent: &Lent, solution: &[u8]) -> bool {
    let sizes = [4, 8, 4, 8].into_iter().zip(lent.slices());
    sizes.chain([(8, solution)]).all(|(size, bytes)| bytes.len() % size == 0)
}

/// A run of the given serial number.
pub fn scenario(rng: &mut Rng, serial: u64, damages: &[Damage]) -> Scenario {
    let (site, solution) = network(rng, serial, damages);
    let words = doubles(&solution);
    let accepted = matrix_held(&site, &solution).lowest() == 0;
    let list = if accepted { list_of(&site, &words) } else { Vec::new() };
    let sheets = draw_sheets(rng, &list, site.shape.as_ref());
    let behind = rng.pick(&[0, GUARD]);
    let changes = changes::draw(rng, &site, accepted.then(|| &words[..]));
    let mut step = |change| {
        let way = draw_way(rng, &site.lent, &solution, behind);
        Step { change, way }
    };
    let steps = changes.into_iter().map(|change| step(change)).collect();
    Scenario {
        lent: site.lent,
        solution,
        sheets,
        behind,
        steps,
        longer: [rng.below(3), rng.below(3)],
        idle: rng.pick(&Idle::ALL),
        seed: rng.next(),
    }
}

/// Mostly a good network with a good sheet; else the sheet or the network may be broken.
fn network(rng: &mut Rng, serial: u64, damages: &[Damage]) -> (Site, Vec<u8>) {
    let sizes = generate::run_sizes(rng, serial);
    if rng.percent(8) {
        let number = rng.pick(&[1, 2, 3]);
        let kinds: Vec<Damage> =
            damages.iter().copied().filter(|damage| damage.number() == number).collect();
        let broken = (rng.pick(&kinds), rng.pick(&Place::ALL));
        let site = Site::new(damaged(rng, sizes, &[broken]));
        let solution = solutions::draw(rng, &site, true);
        return (site, solution);
    }
    let mut parts = generate::parts(rng, &sizes);
    if rng.percent(80) {
        solutions::tune(rng, &mut parts);
    }
    let site = Site::new(parts.encode());
    let solution = if rng.percent(8) {
        solutions::draw(rng, &site, true)
    } else {
        bytes_of_doubles(&solutions::sound(rng, &site, true))
    };
    (site, solution)
}

/// Triplets that each sheet holds, given the first list's length and the most there can be.
fn lengths(rng: &mut Rng, first: usize, most: usize) -> [usize; 3] {
    match rng.below(100) {
        0..=24 => [first; 3],
        25..=34 => [first.saturating_sub(rng.between(1, 4)); 3],
        35..=40 => [rng.pick(&[0, 0, first / 2]); 3],
        41..=57 => [first + rng.between(1, 8); 3],
        58..=77 => {
            let mut lengths = [0; 3].map(|_: usize| first + rng.below(9));
            if rng.percent(40) {
                let short = rng.below(3);
                lengths[short] = first.saturating_sub(rng.below(3));
            }
            lengths
        }
        _ => [most + rng.below(4); 3],
    }
}

/// Sheets of random words, or with the first list in front where it fits.
fn draw_sheets(rng: &mut Rng, list: &[Triplet], shape: Option<&Shape>) -> [Vec<u8>; 3] {
    let most = shape.map_or(6, |shape| shape.matrix_most());
    let [rows, cols, values] = lengths(rng, list.len(), most);
    let mut sheet = |words: usize, size: usize| -> Vec<u8> {
        let bytes = size * words;
        let random = std::iter::from_fn(|| Some(rng.next().to_le_bytes())).flatten();
        random.take(bytes).collect()
    };
    let mut sheets = [sheet(rows, 4), sheet(cols, 4), sheet(values, 8)];
    if rows.min(cols).min(values) >= list.len() && rng.percent(60) {
        lay(&mut sheets, list);
    }
    sheets
}

/// How a change is called: mostly on typed slices, where they have whole words.
fn draw_way(rng: &mut Rng, lent: &Lent, solution: &[u8], behind: usize) -> Way {
    if whole(lent, solution) {
        match rng.below(100) {
            0..=69 => return Way::Words,
            70..=72 => {
                let slice = rng.below(5);
                let lengths = lent.slices().map(<[u8]>::len);
                let length = lengths.get(slice).copied().unwrap_or(solution.len());
                if length > 0 {
                    return Way::Ragged(slice, rng.between(1, [3, 7, 3, 7, 7][slice]) as u8);
                }
            }
            _ => {}
        }
    }
    let mut more = |size: usize| if behind > 0 { rng.below(size) as u8 } else { 0 };
    Way::Bytes([more(4), more(4), more(8)])
}
