//! The paper's job book: what each call of a run answers, and the words that it leaves.
//!
//! Numbers come from the paper's table, lists from the original Rust, each made from nothing for
//! the readings as they then stand.

use std::mem::replace;

use crate::calls::Site;
use crate::paper::{self, set_bits, set_word, solution_held, Held};
use crate::runs::draw::Scenario;
use crate::runs::table::Change;

/// Row, column and the value's bits. No value is zero, so that equal numbers are equal bits.
pub type Triplet = (u32, u32, u64);

pub struct Book {
    /// The network with the readings as they stand.
    pub site: Site,
    pub solution: Vec<f64>,
    /// Numbers 1 to 3 of network and solution sheet: a change that is accepted leaves them as
    /// they were.
    pub matrix_held: Held,
    /// Rows, columns and values as bytes.
    pub sheets: [Vec<u8>; 3],
    /// The original's list for the readings as they stand; empty where the network or the
    /// sheet is refused.
    pub list: Vec<Triplet>,
}

/// The network and its list before an accepted call.
pub struct Before {
    pub site: Site,
    pub list: Vec<Triplet>,
}

/// What a call must answer.
pub struct Due {
    pub number: u8,
    pub count: u64,
    /// All numbers that are known to hold.
    pub held: Held,
    /// Triplets of the list with the change made, where no number below 7 holds.
    pub needed: usize,
    /// Of an accepted call.
    pub before: Option<Before>,
}

impl Due {
    fn refused(held: Held, needed: usize) -> Due {
        Due { number: held.lowest(), count: 0, held, needed, before: None }
    }

    pub fn word(&self) -> u64 {
        u64::from(self.number) + 256 * self.count
    }
}

pub fn list_of(site: &Site, solution: &[f64]) -> Vec<Triplet> {
    let list = site.oracle().jacobian(solution);
    assert!(list.len() <= site.shape().matrix_most(), "the paper's bound of the list");
    list.into_iter()
        .map(|(row, column, value)| {
            assert!(value != 0.0 && value.is_finite(), "values of the list");
            (row as u32, column as u32, value.to_bits())
        })
        .collect()
}

/// Fills the front of rows, columns and values.
pub fn lay(sheets: &mut [Vec<u8>; 3], list: &[Triplet]) {
    let [rows, cols, values] = sheets;
    for (place, &(row, column, bits)) in list.iter().enumerate() {
        set_word(rows, place, row);
        set_word(cols, place, column);
        set_bits(values, place, bits);
    }
}

/// Numbers 1 to 3 of network and solution sheet, as the matrix call has them.
pub fn matrix_held(site: &Site, solution: &[u8]) -> Held {
    let sheet = site.shape.as_ref().map(|shape| {
        let looked_at = shape.blocks.front();
        solution_held(solution, shape, looked_at)
    });
    site.held.and(sheet.unwrap_or_default())
}

impl Book {
    pub fn new(scenario: &Scenario) -> Book {
        let site = Site::new(scenario.lent.clone());
        let mut book = Book {
            matrix_held: matrix_held(&site, &scenario.solution),
            site,
            solution: paper::doubles(&scenario.solution),
            sheets: scenario.sheets.clone(),
            list: Vec::new(),
        };
        if book.matrix_held.lowest() == 0 {
            book.list = list_of(&book.site, &book.solution);
        }
        book
    }

    /// Triplets that the shortest sheet holds.
    pub fn room(&self) -> usize {
        let [rows, cols, values] = &self.sheets;
        (rows.len() / 4).min(cols.len() / 4).min(values.len() / 8)
    }

    /// "For each call it picks the lowest number that holds on its own readings .. On 0,
    /// accepted, the change's reading takes the new bits, that list fills the front, and the
    /// count is its length; else the count is 0 and nothing moves."
    pub fn step(&mut self, change: Change) -> Due {
        let mut held = self.matrix_held;
        if let Some(shape) = &self.site.shape {
            held = held.and(change.held(shape));
            if held.lowest() > 0 {
                held = held.and(Held::when(7, self.room() < shape.matrix_least()));
            }
        }
        if held.lowest() > 0 {
            return Due::refused(held, 0);
        }
        let place = change.place(self.site.shape()).expect("neither 4 nor 5 holds");
        let mut lent = self.site.lent.clone();
        set_bits(&mut lent.readings, place, change.bits());
        let site = Site::new(lent);
        assert!(site.held == self.site.held, "a value within its limits breaks no rule");
        let list = list_of(&site, &self.solution);
        if list.len() > self.room() {
            return Due::refused(Held::of(7), list.len());
        }
        lay(&mut self.sheets, &list);
        let needed = list.len();
        let site = replace(&mut self.site, site);
        let list = replace(&mut self.list, list);
        Due { number: 0, count: needed as u64, held, needed, before: Some(Before { site, list }) }
    }
}
