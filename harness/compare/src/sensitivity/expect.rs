//! What a call must do: numbers by the rules, words by the original Rust.

use std::cell::RefCell;

use oracle::{DcKkt, Differentiable};

use crate::calls::Site;
use crate::paper::Held;
use crate::sensitivity::call::{Ask, Call, Contraction, Selector, Words};
use crate::sensitivity::rules::{self, ADJOINT, OPERANDS, PARAMETERS};

/// What a call must answer and leave.
pub struct Due<'a> {
    /// The number, or the length of the right side's part.
    pub answer: u64,
    /// Another number that would do, with nothing moved either.
    pub also: Option<u64>,
    /// What the count becomes, where it moves.
    pub count: Option<usize>,
    /// The words at the outputs' fronts; none where nothing moves.
    pub fronts: Vec<Words<'a>>,
}

/// What the original did around one solve.
pub struct Contracted {
    /// What it handed to the solve.
    pub right: Vec<f64>,
    /// Its rows, element by element.
    pub words: Vec<f64>,
}

/// What the original has at hand for a call.
#[derive(Clone, Copy, Default)]
pub struct Ready<'a> {
    pub kkt: Option<&'a DcKkt<'a>>,
    pub contracted: Option<&'a Contracted>,
}

/// The original's contraction around a solve that answers these columns. The solve is handed
/// the list, rows and columns exchanged when adjoint.
pub fn contracted(
    dim: usize,
    list: &[(usize, usize, f64)],
    contraction: &Contraction,
    parameter: &[f64],
    solved: &[f64],
) -> Contracted {
    let Contraction { mode, selector, columns } = contraction;
    let adjoint = *mode == ADJOINT;
    let sides = if adjoint { contraction.elements() } else { *columns };
    let right = RefCell::new(Vec::new());
    let solve = |given: &[(usize, usize, f64)], side: &[f64], count: usize| {
        let bits = |&(r, c, x): &(usize, usize, f64)| (r, c, x.to_bits());
        let turned = |&(r, c, x): &(usize, usize, f64)| if adjoint { (c, r, x) } else { (r, c, x) };
        let due = list.iter().map(|triplet| bits(&turned(triplet)));
        assert!(given.iter().map(bits).eq(due), "the list, exchanged when adjoint");
        assert!(count == sides, "a right side for each column, or for each element");
        *right.borrow_mut() = side.to_vec();
        solved.to_vec()
    };
    let (map, of) = (selector.map(), rules::mode(*mode).expect("a mode that is served"));
    let front = parameter[..dim * columns].to_vec();
    let rows = oracle::forward_adjoint(dim, list, front, &map, selector.sign, of, *columns, solve);
    Contracted { right: right.into_inner(), words: rows.concat() }
}

/// What the call must do where these numbers hold.
pub fn due<'a>(site: &Site, ask: &'a Ask, held: Held, ready: Ready<'a>) -> Due<'a> {
    if let Call::RightSide { mode, count, parameter, selection } = &ask.call {
        let part = rules::part(*mode, *count, parameter, selection);
        let part = ready.contracted.map_or(part, |original| &original.right);
        let fits = part.len() <= ask.rooms[0];
        let fronts = if fits { vec![Words::from(part)] } else { vec![] };
        return Due { answer: part.len() as u64, also: None, count: None, fronts };
    }
    let answer = u64::from(held.lowest());
    if answer > 0 {
        let also = rules::also(site, ask).map(u64::from);
        return Due { answer, also, count: None, fronts: vec![] };
    }
    let (count, fronts) = accepted(site, ask, ready);
    Due { answer, also: None, count: Some(count), fronts }
}

/// An accepted call's count and words.
fn accepted<'a>(site: &Site, ask: &'a Ask, ready: Ready<'a>) -> (usize, Vec<Words<'a>>) {
    match &ask.call {
        Call::OperandSelector { operand } => {
            let kkt = ready.kkt.expect("the original of an accepted network");
            let own = kkt.operand_selector(OPERANDS[*operand as usize]);
            let own = own.expect("the original serves what the paper does");
            let Selector { sign, counts, rows, weights } = Selector::new(&own.map, own.sign);
            let entries = rows.len();
            (entries, vec![vec![sign].into(), counts.into(), rows.into(), weights.into()])
        }
        Call::First { contraction } => first(rules::dim(site), contraction, ready),
        Call::Third { contraction, parameter, solved } => {
            let count = contraction.elements() * contraction.columns;
            let words = match ready.contracted {
                Some(original) => Words::from(&original.words[..]),
                // Columns without words may be more than the original can count through.
                None if count == 0 => Words::from(vec![0.0; 0]),
                None => {
                    let dim = rules::dim(site);
                    contracted(dim, &[], contraction, parameter, solved).words.into()
                }
            };
            (count, vec![words])
        }
        Call::UnitScale { operand, parameter, base } => {
            let (o, p) = (OPERANDS[*operand as usize], PARAMETERS[*parameter as usize]);
            (1, vec![vec![oracle::served_unit_scale(o, p, *base)].into()])
        }
        Call::RightSide { .. } => unreachable!("it has no number"),
    }
}

fn first<'a>(dim: usize, contraction: &Contraction, ready: Ready<'a>) -> (usize, Vec<Words<'a>>) {
    if contraction.mode != ADJOINT {
        let handed = ready.contracted.map(|original| original.right.len());
        return (handed.unwrap_or_else(|| dim * contraction.columns), vec![]);
    }
    let right = match ready.contracted {
        Some(original) => Words::from(&original.right[..]),
        None => {
            // The selection sheet is made before any parameter column is looked at.
            let alone = Contraction { columns: 0, ..contraction.clone() };
            let solved = vec![0.0; dim * contraction.elements()];
            contracted(dim, &[], &alone, &[], &solved).right.into()
        }
    };
    (right.bytes().len() / 8, vec![right])
}
