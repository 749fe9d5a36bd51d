//! Makes a contraction that went wrong smaller, for as long as it still goes wrong.

use crate::calls::Site;
use crate::sensitivity::call::{Ask, Call, Selector};
use crate::sensitivity::expect::{self, Ready};
use crate::sensitivity::memory::{Memory, MOST_WORDS};
use crate::sensitivity::rules::{self, ADJOINT, FORWARD};
use crate::sensitivity::{export, Mismatch};

/// Leaves elements and columns out.
pub fn shrink(mut best: Mismatch, memory: &mut Memory) -> Mismatch {
    let site = Site::new(best.lent.clone());
    if best.ask.contraction_mut().is_none() || site.held.lowest() > 0 {
        return best;
    }
    let dim = rules::dim(&site);
    let mut element = 0;
    while let Some(ask) = without_element(dim, &best.ask, element) {
        match found(&site, &ask, memory) {
            Some((expected, got)) => best = Mismatch { ask, expected, got, ..best },
            None => element += 1,
        }
    }
    while let Some(ask) = without_column(dim, &best.ask) {
        match found(&site, &ask, memory) {
            Some((expected, got)) => best = Mismatch { ask, expected, got, ..best },
            None => break,
        }
    }
    best
}

fn found(site: &Site, ask: &Ask, memory: &mut Memory) -> Option<(String, String)> {
    memory.fill_network(site);
    let due = expect::due(site, ask, rules::held(site, ask), Ready::default());
    let answer = export::call(memory, site, ask);
    memory.difference(site, ask, &due, answer)
}

/// The same without an element, its entries and what stands for it in the sheets.
fn without_element(dim: usize, ask: &Ask, element: usize) -> Option<Ask> {
    let mut ask = ask.clone();
    let contraction = ask.contraction_mut()?;
    let (mode, columns) = (contraction.mode, contraction.columns);
    let selector = &mut contraction.selector;
    let entries: u64 = selector.counts.iter().map(|&count| u64::from(count)).sum();
    let whole = entries == selector.rows.len() as u64 && entries == selector.weights.len() as u64;
    if !whole || element >= selector.counts.len() {
        return None;
    }
    let mut map = selector.map();
    map.remove(element);
    *selector = Selector::new(&map, selector.sign);
    let words = match &mut ask.call {
        Call::Third { solved, .. } => {
            if mode == ADJOINT && dim * (element + 1) <= solved.len() {
                solved.drain(dim * element..dim * (element + 1));
            }
            columns
        }
        _ => dim,
    };
    ask.rooms[0] = ask.rooms[0].saturating_sub(words);
    Some(ask)
}

/// The same without the last column, of so few that a sheet may hold them.
fn without_column(dim: usize, ask: &Ask) -> Option<Ask> {
    let mut ask = ask.clone();
    let contraction = ask.contraction_mut()?;
    if contraction.columns == 0 || contraction.columns > MOST_WORDS {
        return None;
    }
    contraction.columns -= 1;
    let (mode, elements, columns) = (contraction.mode, contraction.elements(), contraction.columns);
    if let Call::Third { parameter, solved, .. } = &mut ask.call {
        let column = dim * columns..dim * (columns + 1);
        if column.end <= parameter.len() {
            parameter.drain(column.clone());
        }
        if mode == FORWARD && column.end <= solved.len() {
            solved.drain(column);
        }
        ask.rooms[0] = ask.rooms[0].saturating_sub(elements);
    }
    Some(ask)
}
