//! Selectors, the contraction around an outside solve and unit scales: numbers by the paper's
//! order, words by the original Rust, bit for bit.

mod broken;
pub mod call;
pub mod draw;
pub mod expect;
mod export;
pub mod memory;
pub mod rules;
mod shrink;
pub mod spoil;
mod tally;

use oracle::{DcKkt, Differentiable};

use crate::calls::Site;
use crate::paper::{Lent, SLICE_NAMES};
use crate::random::Rng;
use crate::report::{hex, print_rows};
use crate::solutions;
use crate::table::Cases;
use call::{Ask, Export};
use expect::Ready;
use memory::Memory;
use rules::{ADJOINT, FORWARD, OPERANDS, PARAMETERS};
use tally::Tally;

/// A call that did not do what the paper and the original Rust say.
struct Mismatch {
    /// Empty where the export takes no network.
    lent: Lent,
    ask: Ask,
    expected: String,
    got: String,
    origin: String,
}

impl Mismatch {
    fn size(&self) -> usize {
        self.lent.total() + self.ask.size()
    }

    fn print(&self) {
        let export = self.ask.export();
        println!("mismatch in {} ({})", export.name(), self.origin);
        if export.takes_network() {
            for (name, bytes) in SLICE_NAMES.iter().zip(self.lent.slices()) {
                println!("  {} ({} bytes): {}", name, bytes.len(), hex(bytes));
            }
        }
        self.ask.print();
        println!("  expected: {}", self.expected);
        println!("  got:      {}", self.got);
    }
}

/// Numbers of cases with these calls start here: their draws are their own.
const SENSITIVITY_CASES: u64 = 1 << 43;
/// On so many percent of networks these calls are made.
const SHARE: usize = 18;
/// So many contractions in either mode on a network.
const ROUNDS: usize = 2;
/// So many calls with a rule broken for each of a contraction's two calls with a number.
const SPOILED: usize = 2;

/// All calls so far.
pub struct Sensitivity {
    memory: Memory,
    tally: Tally,
    smallest: Option<Mismatch>,
}

impl Sensitivity {
    pub fn new() -> Sensitivity {
        Sensitivity { memory: Memory::new(), tally: Tally::new(), smallest: None }
    }

    /// What was done with each export.
    pub fn cases(&self) -> impl Iterator<Item = (&'static str, Cases)> + '_ {
        Export::ALL.into_iter().map(|export| (export.symbol(), self.tally.cases[export as usize]))
    }

    pub fn mismatches(&self) -> u64 {
        self.tally.cases.iter().map(|cases| cases.mismatches).sum()
    }

    /// Accepted and damaged networks on which calls were made.
    pub fn networks(&self) -> (u64, u64) {
        (self.tally.accepted_networks, self.tally.damaged_networks)
    }

    /// Calls on a share of the networks.
    pub fn visit(&mut self, site: &Site, seed: u64, case: u64, origin: &str) {
        let mut rng = Rng::new(seed, SENSITIVITY_CASES + case);
        if rng.percent(SHARE) && site.whole() {
            self.memory.fill_network(site);
            if site.held.lowest() == 0 {
                let solution = solutions::sound(&mut rng, site, true);
                self.accepted(site, &solution, &mut rng, origin);
            } else {
                self.damaged(site, &mut rng, origin);
            }
        }
    }

    /// The network with its sheet, and which operands it serves.
    pub fn fixed(&mut self, site: &Site, solution: &[f64], seed: u64) {
        for (number, &operand) in OPERANDS.iter().enumerate() {
            let own = rules::served(number as u32).map(|count| site.shape().count(count));
            let selector = site.oracle().operand_selector(operand);
            let elements = selector.ok().map(|selector| selector.map.len());
            assert!(elements == own, "operand {}", number);
        }
        let mut rng = Rng::new(seed, u64::MAX - 4);
        self.memory.fill_network(site);
        for _ in 0..100 {
            self.accepted(site, solution, &mut rng, "a fixed network");
        }
    }

    fn accepted(&mut self, site: &Site, solution: &[f64], rng: &mut Rng, origin: &str) {
        self.tally.accepted_networks += 1;
        let kkt = site.oracle().kkt(solution);
        assert!(rules::dim(site) == kkt.dim(), "the paper's rows of the matrix");
        let ready = Ready { kkt: Some(&kkt), contracted: None };
        for ask in draw::selectors(rng, site) {
            self.call(site, &ask, ready, origin);
        }
        let list = kkt.jacobian();
        for round in 0..2 * ROUNDS {
            let mode = [FORWARD, ADJOINT][round % 2];
            self.around(site, &kkt, &list, mode, rng, origin);
        }
        for _ in 0..4 {
            self.call(site, &draw::part(rng), Ready::default(), origin);
        }
        for operand in 0..OPERANDS.len() as u32 {
            for parameter in 0..PARAMETERS.len() as u32 {
                self.call(site, &draw::scale(rng, operand, parameter), Ready::default(), origin);
            }
        }
        for _ in 0..6 {
            self.call(site, &draw::refused_scale(rng), Ready::default(), origin);
        }
    }

    /// The three calls around a solve, beside what the original does in one, and contractions
    /// with rules broken.
    fn around(
        &mut self,
        site: &Site,
        kkt: &DcKkt,
        list: &[(usize, usize, f64)],
        mode: u32,
        rng: &mut Rng,
        origin: &str,
    ) {
        let dim = rules::dim(site);
        let script = draw::script(rng, site, Some(kkt), mode);
        self.tally.script(&script);
        let (contraction, solved) = (&script.contraction, &script.solved);
        let original = expect::contracted(dim, list, contraction, &script.parameter, solved);
        let ready = Ready { kkt: None, contracted: Some(&original) };
        let first = script.first(rng, dim);
        self.call(site, &first, ready, origin);
        let side = script.right_side(rng, &original.right);
        self.call(site, &side, ready, origin);
        let third = script.third(rng);
        self.call(site, &third, ready, origin);
        for _ in 0..SPOILED {
            for ask in [&first, &third] {
                let mut ask = ask.clone();
                spoil::spoil(rng, dim, &mut ask);
                self.call(site, &ask, Ready::default(), origin);
            }
        }
    }

    /// Calls that a damaged network refuses, further rules broken or not.
    fn damaged(&mut self, site: &Site, rng: &mut Rng, origin: &str) {
        self.tally.damaged_networks += 1;
        for _ in 0..2 {
            let ask = draw::any_selector(rng, site);
            self.call(site, &ask, Ready::default(), origin);
        }
        let dim = draw::dim(site);
        for round in 0..2 * ROUNDS {
            let script = draw::script(rng, site, None, [FORWARD, ADJOINT][round % 2]);
            for mut ask in [script.first(rng, dim), script.third(rng)] {
                if rng.percent(70) {
                    spoil::spoil(rng, dim, &mut ask);
                }
                self.call(site, &ask, Ready::default(), origin);
            }
        }
    }

    /// Makes one call on the network that `memory` holds and checks all that it did.
    fn call(&mut self, site: &Site, ask: &Ask, ready: Ready, origin: &str) {
        let held = rules::held(site, ask);
        let due = expect::due(site, ask, held, ready);
        let answer = export::call(&mut self.memory, site, ask);
        let found = self.memory.difference(site, ask, &due, answer);
        self.tally.call(site, ask, held, &due);
        if let Some((expected, got)) = found {
            self.tally.cases[ask.export() as usize].mismatches += 1;
            let network = ask.export().takes_network();
            let lent = if network { site.lent.clone() } else { Lent::default() };
            let origin = origin.to_string();
            let found = Mismatch { lent, ask: ask.clone(), expected, got, origin };
            if self.smallest.as_ref().map_or(true, |least| found.size() < least.size()) {
                self.smallest = Some(found);
            }
            self.memory.fill_network(site);
        }
    }

    /// Prints what was covered and the smallest mismatch; answers how many rows stay below
    /// their floors. Each export is called at least so often.
    pub fn print(&mut self, calls: u64) -> usize {
        let low = print_rows(&self.tally.rows(calls));
        if let Some(mismatch) = self.smallest.take() {
            shrink::shrink(mismatch, &mut self.memory).print();
        }
        low
    }
}
