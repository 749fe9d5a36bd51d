//! All columns of the demands contracted with all prices, and by bytes the column of one demand with one price,
//! adjoint and forward, beside the original's `forward_adjoint`, and the right side handed to the solve.
//!
//! An export's time is that of the first and the third call: both test the network and the selector, the
//! third also every word of the parameter sheet and of the solved columns. The solve between them isn't
//! timed. The original takes the parameter sheet by value, and its solve answers ready columns: both are
//! copied for each call, for the exports as for the original, and the time of the copies is taken off.
//! Freed memory is kept for the next call, so that the original's own sheets cost it no page faults. The
//! list is empty: exchanging its rows and columns when adjoint is the outside solve's work here.

use crate::case::{double_bytes, doubles, hold, on, solution, word_bytes, Case};
use crate::timing::{alone, side_by_side_less, Times};
use crate::{Form, Table};
use exports::{capi_contraction_first, capi_contraction_third, capi_right_side};
use exports::{sens_contraction_first, sens_contraction_third, sens_right_side};
use oracle::{forward_adjoint, Mode, Operand, Parameter, Power, Selector};
use std::cell::{Cell, RefCell};
use std::hint::black_box;
use std::time::{Duration, Instant};

/// The columns of the demands and the selector of the prices at some of a network's buses.
struct Contraction<'a> {
    case: &'a Case,
    dim: usize,
    buses: usize,
    parameter: Vec<f64>,
    /// What a solve answers in either mode.
    ready: Vec<f64>,
    selector: Selector,
    counts: Vec<u32>,
    rows: Vec<u32>,
    weights: Vec<f64>,
}

impl Contraction<'_> {
    /// At all buses.
    fn whole(case: &Case) -> Contraction<'_> {
        Contraction::of(case, (0..case.size.n).collect())
    }

    /// At the last bus.
    fn one(case: &Case) -> Contraction<'_> {
        Contraction::of(case, vec![case.size.n - 1])
    }

    fn of(case: &Case, buses: Vec<usize>) -> Contraction<'_> {
        let original = &case.original;
        let demand = Parameter::Demand(Power::Active);
        let Ok(parameter) = original.parameter_jacobian(&case.sheet, demand, &buses) else {
            panic!("demands are served");
        };
        let Ok(mut selector) = original.operand_selector(Operand::Price(Power::Active)) else {
            panic!("prices are served");
        };
        selector.map = buses.iter().map(|&bus| selector.map[bus].clone()).collect();
        let entries = || selector.map.iter().flatten();
        Contraction {
            case,
            dim: original.dim(),
            buses: buses.len(),
            ready: solution(original.dim() * buses.len()),
            counts: selector.map.iter().map(|entries| entries.len() as u32).collect(),
            rows: entries().map(|entry| entry.0 as u32).collect(),
            weights: entries().map(|entry| entry.1).collect(),
            parameter,
            selector,
        }
    }

    /// The driver's: the leading minus of `dz/dp` with the operand's own sign.
    fn sign(&self) -> f64 {
        -self.selector.sign
    }

    /// The two calls around a solve that answers `x`.
    fn ours(&self, mode: u32, p: &[f64], x: &[f64], selection: &mut [f64], out: &mut [f64]) {
        let (net, sign) = (&self.case.words, self.sign());
        let (c, i, g) = (&self.counts, &self.rows, &self.weights);
        let (mut before, mut after) = (0, 0);
        let answers = unsafe {
            let first = on!(
                sens_contraction_first, net, mode, sign,
                c.as_ptr(), c.len(), i.as_ptr(), i.len(), g.as_ptr(), g.len(), self.buses,
                selection.as_mut_ptr(), selection.len(), &mut before,
            );
            let third = on!(
                sens_contraction_third, net, mode, sign,
                c.as_ptr(), c.len(), i.as_ptr(), i.len(), g.as_ptr(), g.len(), self.buses,
                p.as_ptr(), p.len(), x.as_ptr(), x.len(), out.as_mut_ptr(), out.len(), &mut after,
            );
            [first, third]
        };
        assert_eq!(black_box(answers), [0, 0]);
        assert_eq!((before, after), (x.len(), out.len()));
    }

    /// The original around a solve that answers what is ready, on copies; the time that they took.
    fn theirs_on_copies(&self, mode: Mode) -> Duration {
        let (p, first) = copy(&self.parameter);
        let copied = Cell::new(first);
        let words = self.theirs(mode, p, |right| {
            black_box(right);
            let (x, second) = copy(&self.ready);
            copied.set(first + second);
            x
        });
        black_box(words);
        copied.get()
    }

    /// The original around `solve`, which is given the right side.
    fn theirs(&self, mode: Mode, p: Vec<f64>, solve: impl Fn(&[f64]) -> Vec<f64>) -> Vec<Vec<f64>> {
        let (map, sign) = (&self.selector.map, self.sign());
        forward_adjoint(self.dim, &[], p, map, sign, mode, self.buses, |_, right, _| solve(right))
    }

    /// The words of both sides: the result, and when adjoint the right side.
    fn hold(&self, mode: Mode, selection: &[f64], out: &[f64]) {
        let right = RefCell::new(Vec::new());
        let due = self.theirs(mode, self.parameter.clone(), |side| {
            *right.borrow_mut() = side.to_vec();
            self.ready.clone()
        });
        hold(out, &due.concat());
        if mode == Mode::Adjoint {
            hold(selection, &right.into_inner());
        }
    }
}

/// What is lent as bytes, of one bus.
struct InBytes<'a> {
    given: Contraction<'a>,
    rows: Vec<u8>,
    weights: Vec<u8>,
    parameter: Vec<u8>,
    ready: Vec<u8>,
}

impl InBytes<'_> {
    fn of(case: &Case) -> InBytes<'_> {
        let given = Contraction::one(case);
        InBytes {
            rows: word_bytes(&given.rows),
            weights: double_bytes(&given.weights),
            parameter: double_bytes(&given.parameter),
            ready: double_bytes(&given.ready),
            given,
        }
    }

    /// The two calls around a solve that answers `x`.
    fn ours(&self, mode: u32, p: &[u8], x: &[u8], selection: &mut [u8], out: &mut [u8]) {
        let (net, sign, entries) = (&self.given.case.bytes, self.given.sign(), self.given.counts[0]);
        let (i, g) = (&self.rows, &self.weights);
        let answers = unsafe {
            let first = on!(
                capi_contraction_first, net, mode, sign, entries,
                i.as_ptr(), i.len(), g.as_ptr(), g.len(), selection.as_mut_ptr(), selection.len(),
            );
            let third = on!(
                capi_contraction_third, net, mode, sign, entries, i.as_ptr(), i.len(), g.as_ptr(), g.len(),
                p.as_ptr(), p.len(), x.as_ptr(), x.len(), out.as_mut_ptr(), out.len(),
            );
            [first, third]
        };
        assert_eq!(black_box(answers), [256 * self.given.dim as u64, 256]);
    }
}

/// A copy of a sheet, and the time that it took.
fn copy<T: Clone>(sheet: &[T]) -> (Vec<T>, Duration) {
    let begun = Instant::now();
    let copy = black_box(sheet).to_vec();
    (copy, begun.elapsed())
}

fn by_words(case: &Case, code: u32, mode: Mode) -> Times {
    let given = Contraction::whole(case);
    let (mut selection, mut out) = (vec![0f64; given.ready.len()], vec![0f64; given.buses * given.buses]);
    given.ours(code, &given.parameter, &given.ready, &mut selection, &mut out);
    given.hold(mode, &selection, &out);
    side_by_side_less(
        || {
            let ((p, first), (x, second)) = (copy(&given.parameter), copy(&given.ready));
            given.ours(code, &p, &x, &mut selection, &mut out);
            first + second
        },
        || given.theirs_on_copies(mode),
    )
}

fn by_bytes(case: &Case, code: u32, mode: Mode) -> Times {
    let lent = InBytes::of(case);
    let (mut selection, mut out) = (vec![0u8; lent.ready.len()], [0u8; 8]);
    lent.ours(code, &lent.parameter, &lent.ready, &mut selection, &mut out);
    lent.given.hold(mode, &doubles(&selection), &doubles(&out));
    side_by_side_less(
        || {
            let ((p, first), (x, second)) = (copy(&lent.parameter), copy(&lent.ready));
            lent.ours(code, &p, &x, &mut selection, &mut out);
            first + second
        },
        || lent.given.theirs_on_copies(mode),
    )
}

/// The right side when forward, the whole parameter sheet. The original moves its own.
fn right_side_by_words(case: &Case) -> Times {
    let given = Contraction::whole(case);
    let (p, mut out) = (&given.parameter, vec![0f64; given.parameter.len()]);
    let port = |out: &mut [f64]| {
        let length = unsafe {
            sens_right_side(FORWARD, p.len(), p.as_ptr(), p.len(), p.as_ptr(), 0, out.as_mut_ptr(), out.len())
        };
        assert_eq!(black_box(length), p.len());
    };
    port(&mut out);
    hold(&out, p);
    alone(|| port(&mut out))
}

/// The same of one column.
fn right_side_by_bytes(case: &Case) -> Times {
    let lent = InBytes::of(case);
    let (p, count, mut out) = (&lent.parameter, lent.given.dim, vec![0u8; lent.parameter.len()]);
    let port = |out: &mut [u8]| {
        let length = unsafe {
            capi_right_side(FORWARD, count, p.as_ptr(), p.len(), p.as_ptr(), 0, out.as_mut_ptr(), out.len())
        };
        assert_eq!(black_box(length), count);
    };
    port(&mut out);
    hold(&doubles(&out), &lent.given.parameter);
    alone(|| port(&mut out))
}

const FORWARD: u32 = 0;
const ADJOINT: u32 = 1;

pub fn rows(table: &mut Table, cases: &[Case]) {
    let modes = [("adjoint", ADJOINT, Mode::Adjoint), ("forward", FORWARD, Mode::Forward)];
    for (name, code, mode) in modes {
        let name = format!("contraction, {name}");
        table.call(&name, Form::Words, "c", cases, |case| by_words(case, code, mode));
    }
    for (name, code, mode) in modes {
        let name = format!("contraction, {name}, one element");
        table.call(&name, Form::Bytes, "co", cases, |case| by_bytes(case, code, mode));
    }
    table.call("right_side", Form::Words, "n", cases, right_side_by_words);
    table.call("right_side, one column", Form::Bytes, "n", cases, right_side_by_bytes);
}
