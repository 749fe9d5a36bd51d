//! Columns of the parameters, `sens_parameter_jacobian`: numbers by the paper's order, words by
//! the original Rust.

pub mod draw;
mod export;
pub mod rules;
mod tally;

use oracle::{DcKkt, Differentiable};

use crate::calls::Site;
use crate::paper::{bytes_of_doubles, doubles, Held, Lent, SLICE_NAMES};
use crate::random::Rng;
use crate::report::{hex, print_rows};
use crate::solutions;
use crate::table::Cases;
use export::Memory;
use rules::PARAMETERS;
use tally::Tally;

/// What a call is given beside the network.
#[derive(Clone)]
pub struct Ask {
    /// Whole words.
    pub solution: Vec<u8>,
    pub parameter: u32,
    pub columns: Vec<u32>,
    /// Words of the lent sheet.
    pub sheet: usize,
    /// Whether bytes that may not move follow the sheet, instead of a page that may not be
    /// touched.
    pub behind: bool,
}

/// A call that did not do what the paper and the original Rust say.
struct Mismatch {
    lent: Lent,
    ask: Ask,
    expected: String,
    got: String,
    origin: String,
}

impl Mismatch {
    fn size(&self) -> usize {
        self.lent.total() + self.ask.solution.len() + 4 * self.ask.columns.len()
    }

    fn print(&self) {
        println!("mismatch in {} ({})", export::NAME, self.origin);
        for (name, bytes) in SLICE_NAMES.iter().zip(self.lent.slices()) {
            println!("  {} ({} bytes): {}", name, bytes.len(), hex(bytes));
        }
        println!("  solution ({} bytes): {}", self.ask.solution.len(), hex(&self.ask.solution));
        println!("  parameter: {}", self.ask.parameter);
        println!("  columns: {:?}", self.ask.columns);
        println!("  sheet: {} words lent", self.ask.sheet);
        println!("  expected: {}", self.expected);
        println!("  got:      {}", self.got);
    }
}

/// Numbers of cases with parameter columns start here: their draws are their own.
const PARAMETER_CASES: u64 = 1 << 42;
/// Of so many percent of networks columns are asked.
const SHARE: usize = 25;

/// All calls so far.
pub struct Parameters {
    memory: Memory,
    tally: Tally,
    pub mismatches: u64,
    smallest: Option<Mismatch>,
}

impl Parameters {
    pub fn new() -> Parameters {
        Parameters { memory: Memory::new(), tally: Tally::new(), mismatches: 0, smallest: None }
    }

    /// What was done with the export.
    pub fn cases(&self) -> (&'static str, Cases) {
        let (run, refused) = (self.tally.calls, self.tally.refused());
        ("sens_parameter_jacobian", Cases { run, refused, mismatches: self.mismatches })
    }

    /// Accepted and damaged networks of which columns were asked.
    pub fn networks(&self) -> (u64, u64) {
        (self.tally.accepted_networks, self.tally.damaged_networks)
    }

    /// Calls on a share of the networks.
    pub fn visit(&mut self, site: &Site, seed: u64, case: u64, origin: &str) {
        let mut rng = Rng::new(seed, PARAMETER_CASES + case);
        if rng.percent(SHARE) && site.whole() {
            self.all(site, &mut rng, origin);
        }
    }

    /// The network with its sheet, and which parameters it serves.
    pub fn fixed(&mut self, site: &Site, solution: &[f64], seed: u64) {
        for (number, &parameter) in PARAMETERS.iter().enumerate() {
            let own = rules::served(number as u32).map(|count| site.shape().count(count));
            assert!(site.oracle().parameter_len(parameter) == own, "parameter {}", number);
        }
        let mut rng = Rng::new(seed, u64::MAX - 3);
        self.all(site, &mut rng, "a fixed network");
        self.sound(site, solution, &mut rng, "a fixed network");
    }

    fn all(&mut self, site: &Site, rng: &mut Rng, origin: &str) {
        self.memory.fill_network(site);
        if site.held.lowest() == 0 {
            self.tally.accepted_networks += 1;
            let solution = solutions::sound(rng, site, true);
            self.sound(site, &solution, rng, origin);
            let ask = draw::any(rng, site);
            self.call(site, &ask, None, origin);
        } else {
            self.tally.damaged_networks += 1;
            for _ in 0..2 {
                let ask = draw::any(rng, site);
                self.call(site, &ask, None, origin);
            }
        }
    }

    fn sound(&mut self, site: &Site, solution: &[f64], rng: &mut Rng, origin: &str) {
        assert!(rules::dim(site) == site.oracle().dim(), "the paper's rows of the matrix");
        let kkt = site.oracle().kkt(solution);
        for ask in draw::accepted(rng, site, &bytes_of_doubles(solution)) {
            self.call(site, &ask, Some(&kkt), origin);
        }
    }

    /// Makes one call on the network that `memory` holds and checks all that it did.
    fn call(&mut self, site: &Site, ask: &Ask, kkt: Option<&DcKkt>, origin: &str) {
        let (held, front) = expected(site, ask, kkt);
        let found = check(site, ask, held, &front, &mut self.memory);
        self.tally.call(site, ask, held, &front);
        if let Some((expected, got)) = found {
            self.mismatches += 1;
            let (lent, ask) = (site.lent.clone(), ask.clone());
            let found = Mismatch { lent, ask, expected, got, origin: origin.to_string() };
            if self.smallest.as_ref().map_or(true, |least| found.size() < least.size()) {
                self.smallest = Some(found);
            }
            self.memory.fill_network(site);
        }
    }

    /// Prints what was covered and the smallest mismatch; answers how many rows stay below
    /// their floors.
    pub fn print(&mut self) -> usize {
        let low = print_rows(&self.tally.rows());
        if let Some(mismatch) = self.smallest.take() {
            shrink(mismatch, &mut self.memory).print();
        }
        low
    }
}

/// The numbers that hold, and the words that are due at the sheet's front. The original refuses
/// what the paper refuses as a kind or for a piecewise cost.
pub fn expected(site: &Site, ask: &Ask, kkt: Option<&DcKkt>) -> (Held, Vec<f64>) {
    let held = rules::held(site, ask);
    let number = held.lowest();
    let parameter = PARAMETERS.get(ask.parameter as usize).copied();
    let asked = [0, 4, 6].contains(&number) && !ask.columns.is_empty();
    let parameter = match parameter.filter(|_| asked) {
        Some(parameter) => parameter,
        None => return (held, Vec::new()),
    };
    let columns: Vec<usize> = ask.columns.iter().map(|&column| column as usize).collect();
    let block = match kkt {
        Some(kkt) => kkt.parameter_jacobian(parameter, &columns),
        None => {
            let solution = doubles(&ask.solution);
            site.oracle().kkt(&solution).parameter_jacobian(parameter, &columns)
        }
    };
    assert!(block.is_err() == (number > 0), "the original refuses as the paper does");
    (held, block.map_or(Vec::new(), |block| block.into_columns()))
}

/// The first difference between what a call did and what it must do.
fn check(
    site: &Site,
    ask: &Ask,
    held: Held,
    front: &[f64],
    memory: &mut Memory,
) -> Option<(String, String)> {
    let answer = memory.call(site, ask);
    let number = held.lowest();
    if answer != u32::from(number) {
        return Some((format!("number {}", number), format!("number {}", answer)));
    }
    let (due, got) = memory.difference(site, ask, front)?;
    Some((format!("number {}, {}", number, due), got))
}

/// Leaves columns out for as long as the call still fails.
fn shrink(mut best: Mismatch, memory: &mut Memory) -> Mismatch {
    let site = Site::new(best.lent.clone());
    let mut place = 0;
    while place < best.ask.columns.len() && best.ask.columns.len() <= 1000 {
        let mut ask = best.ask.clone();
        ask.columns.remove(place);
        memory.fill_network(&site);
        let (held, front) = expected(&site, &ask, None);
        match check(&site, &ask, held, &front, memory) {
            Some((expected, got)) => best = Mismatch { ask, expected, got, ..best },
            None => place += 1,
        }
    }
    best
}
