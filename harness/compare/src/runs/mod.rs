//! Runs of site changes, each call on what the last one left, beside the paper's job book.

mod book;
mod changes;
mod draw;
mod exports;
mod marks;
mod memory;
mod play;
pub mod program;
mod shrink;
mod table;
mod tally;

use crate::damage::Damage;
use crate::paper::SLICE_NAMES;
use crate::random::Rng;
use crate::report::{hex, print_rows};
use crate::table::Cases;
use draw::Scenario;
use memory::{RunMemory, SHEET_NAMES};
use play::{play, Failure};
use tally::Tally;

/// A run that did not do what the job book says.
pub struct RunMismatch {
    scenario: Scenario,
    failure: Failure,
    /// What was being done, so that it can be done again.
    origin: String,
}

impl RunMismatch {
    fn print(&self) {
        let scenario = &self.scenario;
        println!("mismatch in a run of changes, {} ({})", self.failure.check, self.origin);
        let print = |name: &str, bytes: &[u8]| {
            println!("  {} ({} bytes): {}", name, bytes.len(), hex(bytes));
        };
        for (name, bytes) in SLICE_NAMES.iter().zip(scenario.lent.slices()) {
            print(name, bytes);
        }
        print("solution", &scenario.solution);
        for (name, bytes) in SHEET_NAMES.iter().zip(&scenario.sheets) {
            print(name, bytes);
        }
        for step in &scenario.steps {
            let [head, low, high] = step.change.words();
            println!("  change {:08x} {:08x} {:08x}, {:?}", head, low, high, step.way);
        }
        println!("  expected: {}", self.failure.expected);
        println!("  got:      {}", self.failure.got);
    }
}

/// All runs so far.
pub struct Runs {
    memory: RunMemory,
    tally: Tally,
    pub mismatches: u64,
    smallest: Option<RunMismatch>,
}

impl Runs {
    pub fn new() -> Runs {
        Runs { memory: RunMemory::new(), tally: Tally::new(), mismatches: 0, smallest: None }
    }

    pub fn count(&self) -> u64 {
        self.tally.runs
    }

    /// Changes called one by one.
    pub fn calls(&self) -> u64 {
        self.tally.calls
    }

    /// What was done with each export.
    pub fn cases(&self) -> impl Iterator<Item = (&'static str, Cases)> + '_ {
        self.tally.cases()
    }

    /// Draws a run and plays it.
    pub fn one(&mut self, rng: &mut Rng, serial: u64, damages: &[Damage], origin: &str) {
        self.play(draw::scenario(rng, serial, damages), origin);
    }

    /// The paper's changes of its bench network.
    pub fn bench(&mut self) {
        self.play(draw::bench(), "the bench network");
    }

    fn play(&mut self, scenario: Scenario, origin: &str) {
        if let Err(failure) = play(&scenario, &mut self.memory, &mut self.tally) {
            self.mismatches += 1;
            self.tally.missed();
            let size = scenario.size();
            if self.smallest.as_ref().map_or(true, |least| size < least.scenario.size()) {
                self.smallest = Some(RunMismatch { scenario, failure, origin: origin.to_string() });
            }
        }
    }

    /// Prints what was covered and the smallest mismatch; answers how many rows stay below
    /// their floors.
    pub fn print(&mut self) -> usize {
        let low = print_rows(&self.tally.rows());
        if let Some(mismatch) = self.smallest.take() {
            shrink::shrink(mismatch, &mut self.memory).print();
        }
        low
    }
}
