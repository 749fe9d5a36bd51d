//! The calls of the derivatives on bytes: one parameter column, selectors, the contraction of one element and
//! one column, and unit scales. Numbers are those of the calls on words, results the original Rust's.

mod broken;
mod call;
mod draw;
mod expect;
mod export;
mod memory;
mod tally;

use oracle::DcKkt;

use crate::calls::Site;
use crate::generate::{self, Sizes};
use crate::paper::{bytes_of_doubles, Count, Field, Lent, Wire, SLICE_NAMES};
use crate::random::Rng;
use crate::report::{hex, print_rows};
use crate::sensitivity::expect::contracted;
use crate::sensitivity::rules::{self, ADJOINT, FORWARD};
use crate::solutions;
use crate::table::Cases;
use call::{Ask, Export};
use expect::{Read, MOST};
use memory::Memory;
use tally::Tally;

/// A call that did not do what the paper and the original Rust say.
struct Mismatch {
    /// Empty where the export takes no network.
    lent: Lent,
    ask: Ask,
    expected: String,
    got: String,
    origin: String,
}

impl Mismatch {
    fn size(&self) -> usize {
        self.lent.total() + self.ask.size()
    }

    fn print(&self) {
        let export = self.ask.export();
        println!("mismatch in {} ({})", export.name(), self.origin);
        if export.takes_network() {
            for (name, bytes) in SLICE_NAMES.iter().zip(self.lent.slices()) {
                println!("  {} ({} bytes): {}", name, bytes.len(), hex(bytes));
            }
        }
        self.ask.print();
        println!("  expected: {}", self.expected);
        println!("  got:      {}", self.got);
    }
}

/// Numbers of cases with these calls start here: their draws are their own.
const BYTES_CASES: u64 = 1 << 44;
/// On so many percent of networks these calls are made.
const SHARE: usize = 14;

/// The original's system with the solution sheet that it was made of.
type System<'a> = Option<(&'a DcKkt<'a>, &'a [u8])>;

/// All calls so far.
pub struct Bytes {
    memory: Memory,
    tally: Tally,
    smallest: Option<Mismatch>,
}

impl Bytes {
    pub fn new() -> Bytes {
        Bytes { memory: Memory::new(), tally: Tally::new(), smallest: None }
    }

    /// What was done with each export.
    pub fn cases(&self) -> impl Iterator<Item = (&'static str, Cases)> + '_ {
        Export::ALL.into_iter().map(|export| (export.name(), self.tally.cases[export as usize]))
    }

    pub fn mismatches(&self) -> u64 {
        self.tally.cases.iter().map(|cases| cases.mismatches).sum()
    }

    /// Accepted and damaged networks on which calls were made.
    pub fn networks(&self) -> (u64, u64) {
        (self.tally.accepted_networks, self.tally.damaged_networks)
    }

    /// Calls on a share of the networks, those without whole words too.
    pub fn visit(&mut self, site: &Site, seed: u64, case: u64, origin: &str) {
        let mut rng = Rng::new(seed, BYTES_CASES + case);
        if rng.percent(SHARE) {
            self.memory.fill_network(site);
            if site.held.lowest() == 0 {
                let solution = solutions::sound(&mut rng, site, true);
                self.accepted(site, &solution, &mut rng, origin);
            } else {
                self.damaged(site, &mut rng, origin);
            }
        }
    }

    /// A network with its sheet.
    pub fn fixed(&mut self, site: &Site, solution: &[f64], seed: u64) {
        let mut rng = Rng::new(seed, u64::MAX - 7);
        self.memory.fill_network(site);
        for _ in 0..100 {
            self.accepted(site, solution, &mut rng, "a fixed network");
        }
    }

    /// The greatest network, whose dim is the most words that the exports hold.
    pub fn greatest(&mut self, seed: u64) {
        let mut rng = Rng::new(seed, u64::MAX - 8);
        let site = greatest(&mut rng);
        assert!(rules::dim(&site) == MOST, "dim of the greatest network");
        self.memory.fill_network(&site);
        for _ in 0..100 {
            let solution = solutions::sound(&mut rng, &site, true);
            self.accepted(&site, &solution, &mut rng, "the greatest network");
        }
    }

    fn accepted(&mut self, site: &Site, solution: &[f64], rng: &mut Rng, origin: &str) {
        self.tally.accepted_networks += 1;
        let kkt = site.oracle().kkt(solution);
        let solution = bytes_of_doubles(solution);
        let system: System = Some((&kkt, &solution));
        for ask in draw::columns(rng, site, &solution) {
            self.call(site, &ask, system, origin);
        }
        for ask in draw::selectors(rng, site) {
            self.call(site, &ask, system, origin);
        }
        for mode in [FORWARD, ADJOINT] {
            self.around(site, &kkt, mode, rng, origin);
        }
        for _ in 0..3 {
            self.call(site, &draw::part(rng), None, origin);
        }
        for _ in 0..3 {
            self.call(site, &draw::scale(rng), None, origin);
        }
        for _ in 0..2 {
            self.call(site, &draw::refused_scale(rng), None, origin);
        }
    }

    /// The three calls around a solve, and contractions with rules broken.
    fn around(&mut self, site: &Site, kkt: &DcKkt, mode: u32, rng: &mut Rng, origin: &str) {
        let dim = rules::dim(site);
        let script = draw::script(rng, site, Some(kkt), mode);
        self.tally.script(&script);
        let first = script.first(rng, dim);
        self.call(site, &first, None, origin);
        let right = right_side(dim, &script);
        let side = script.right_side(rng, &right);
        self.call(site, &side, None, origin);
        let third = script.third(rng);
        self.call(site, &third, None, origin);
        for ask in [&first, &first, &third, &third] {
            let mut ask = ask.clone();
            draw::spoil(rng, dim, &mut ask);
            self.call(site, &ask, None, origin);
        }
    }

    /// Calls that a damaged network refuses, further rules broken or not.
    fn damaged(&mut self, site: &Site, rng: &mut Rng, origin: &str) {
        self.tally.damaged_networks += 1;
        for _ in 0..2 {
            let ask = draw::any_column(rng, site);
            self.call(site, &ask, None, origin);
            let ask = draw::any_selector(rng, site);
            self.call(site, &ask, None, origin);
        }
        let dim = crate::sensitivity::draw::dim(site);
        for mode in [FORWARD, ADJOINT, FORWARD, ADJOINT] {
            let script = draw::script(rng, site, None, mode);
            for mut ask in [script.first(rng, dim), script.third(rng)] {
                if rng.percent(75) {
                    draw::spoil(rng, dim, &mut ask);
                }
                self.call(site, &ask, None, origin);
            }
        }
    }

    /// Makes one call on the network that `memory` holds and checks all that it did.
    fn call(&mut self, site: &Site, ask: &Ask, system: System, origin: &str) {
        let due = expect::due(site, ask, system);
        let answer = export::call(&mut self.memory, ask);
        let found = self.memory.difference(site, ask, &due, answer);
        self.tally.call(site, ask, &due);
        if let Some((expected, got)) = found {
            self.tally.cases[ask.export() as usize].mismatches += 1;
            let network = ask.export().takes_network();
            let lent = if network { site.lent.clone() } else { Lent::default() };
            let origin = origin.to_string();
            let found = Mismatch { lent, ask: ask.clone(), expected, got, origin };
            if self.smallest.as_ref().map_or(true, |least| found.size() < least.size()) {
                self.smallest = Some(found);
            }
            self.memory.fill_network(site);
        }
    }

    /// Prints what was covered and the smallest mismatch; answers how many rows stay below
    /// their floors.
    pub fn print(&mut self) -> usize {
        let low = print_rows(&self.tally.rows());
        if let Some(mismatch) = self.smallest.take() {
            mismatch.print();
        }
        low
    }
}

/// What the original hands to the solve in a script's contraction.
fn right_side(dim: usize, script: &draw::Script) -> Vec<f64> {
    let call = call::Call::First { element: script.element.clone() };
    match expect::read(&Ask { call, rooms: [0; call::SHEETS], behind: false }) {
        Read::Other(mut read) => {
            let contraction = read.contraction_mut().expect("the first call has one");
            contracted(dim, &[], contraction, &script.parameter, &script.solved).right
        }
        Read::Column(_) => unreachable!("the first call is no column"),
    }
}

/// A network with every count at its limit, every cost piecewise, and two limits at every row.
fn greatest(rng: &mut Rng) -> Site {
    let counts = Count::ALL.map(|count| count.limit());
    let sizes = Sizes { counts, flow_terms: 0, generation_terms: 0 };
    let mut parts = generate::parts(rng, &sizes);
    let each = counts[Count::Segments as usize] / counts[Count::Generators as usize];
    parts.wire_mut(Wire::Segments).fill(each as u32);
    parts.wire_mut(Wire::RowMasks).fill(3);
    parts.field_mut(Field::UpperMw).fill(2.0);
    parts.field_mut(Field::LowerMw).fill(1.0);
    Site::new(parts.encode())
}
