//! What a call on bytes must do. Its bytes are read as words; the numbers are then those of the call on
//! words, and the results come from the original Rust.

use oracle::DcKkt;

use crate::bytes::call::{Ask, Call, Element, List};
use crate::calls::Site;
use crate::paper::{bytes_of_doubles, doubles, words, Held};
use crate::parameters;
use crate::sensitivity::{call as typed, expect, rules};

/// The most words that an export holds of rows, weights, parameter sheet, selection sheet and solved
/// column: dim of the greatest network.
pub const MOST: usize = 6_544;

/// What a call must answer and leave.
pub struct Due {
    /// Number + 256 times count, or the length of the right side's part.
    pub answer: u64,
    /// Another number that would do, with nothing moved either.
    pub also: Option<u64>,
    /// The bytes at the outputs' fronts; none where nothing moves.
    pub fronts: Vec<Vec<u8>>,
    /// The numbers that hold, and those that would if nothing were said of bytes: whole words alone are
    /// looked at, however many.
    pub held: Held,
    pub of_words: Held,
}

/// The call on words that this one is read as. Bytes after the last whole word are left out.
pub enum Read {
    Column(parameters::Ask),
    Other(typed::Ask),
}

fn contraction(element: &Element) -> typed::Contraction {
    let selector = typed::Selector {
        sign: element.sign,
        counts: vec![element.entries],
        rows: words(&element.rows),
        weights: doubles(&element.weights),
    };
    typed::Contraction { mode: element.mode, selector, columns: 1 }
}

pub fn read(ask: &Ask) -> Read {
    let mut rooms = ask.rooms;
    for (room, sheet) in rooms.iter_mut().zip(ask.export().sheets()) {
        *room /= sheet.1;
    }
    let behind = ask.behind;
    let call = match &ask.call {
        Call::ParameterJacobian { solution, parameter, column } => {
            let solution = solution[..solution.len() / 8 * 8].to_vec();
            let (parameter, columns, sheet) = (*parameter, vec![*column], rooms[0]);
            return Read::Column(parameters::Ask { solution, parameter, columns, sheet, behind });
        }
        Call::OperandSelector { operand } => typed::Call::OperandSelector { operand: *operand },
        Call::First { element } => typed::Call::First { contraction: contraction(element) },
        Call::RightSide { mode, count, parameter, selection } => typed::Call::RightSide {
            mode: *mode,
            count: *count,
            parameter: doubles(parameter),
            selection: doubles(selection),
        },
        Call::Third { element, parameter, solved } => typed::Call::Third {
            contraction: contraction(element),
            parameter: doubles(parameter),
            solved: doubles(solved),
        },
        Call::UnitScale { operand, parameter, base } => {
            typed::Call::UnitScale { operand: *operand, parameter: *parameter, base: *base }
        }
    };
    Read::Other(typed::Ask { call, rooms, behind })
}

/// Whether a slice has no whole number of words, or more than the export holds.
pub fn unread(ask: &Ask) -> bool {
    let ragged = |list: &List| list.bytes.len() % list.size != 0;
    let long = |list: &List| list.limited && list.bytes.len() / list.size > MOST;
    ask.lists().iter().any(|list| ragged(list) || long(list))
}

/// What the call must do; the original's system, where it is at hand, comes with its solution sheet.
pub fn due(site: &Site, ask: &Ask, system: Option<(&DcKkt, &[u8])>) -> Due {
    let unread = unread(ask);
    let read = match read(ask) {
        Read::Column(read) => {
            let own = system.filter(|(_, solution)| *solution == &read.solution[..]);
            return column(site, &read, unread, own.map(|(kkt, _)| kkt));
        }
        Read::Other(read) => read,
    };
    if let typed::Call::RightSide { mode, count, parameter, selection } = &read.call {
        let part = rules::part(*mode, *count, parameter, selection);
        let part = if unread { &[] } else { part };
        let fits = part.len() <= read.rooms[0];
        let fronts = if fits { vec![bytes_of_doubles(part)] } else { vec![] };
        let held = Held::default();
        return Due { answer: part.len() as u64, also: None, fronts, held, of_words: held };
    }
    let of_words = rules::held(site, &read);
    let held = of_words.and(Held::when(1, unread));
    // Only the lengths of the third call's sheets depend on dim, which a broken mask leaves open.
    let third = matches!(read.call, typed::Call::Third { .. });
    let also = rules::also(site, &read).filter(|_| third).map(u64::from);
    if held.lowest() > 0 {
        let answer = u64::from(held.lowest());
        return Due { answer, also, fronts: vec![], held, of_words };
    }
    let kkt = system.map(|(kkt, _)| kkt);
    let due = expect::due(site, &read, held, expect::Ready { kkt, contracted: None });
    let count = due.count.expect("an accepted call has a count") as u64;
    let fronts = due.fronts.iter().map(|front| front.bytes().to_vec()).collect();
    Due { answer: 256 * count, also: None, fronts, held, of_words }
}

fn column(site: &Site, read: &parameters::Ask, unread: bool, kkt: Option<&DcKkt>) -> Due {
    let (of_words, front) = parameters::expected(site, read, kkt);
    let held = of_words.and(Held::when(1, unread));
    let (answer, fronts) = match held.lowest() {
        0 => (256, vec![bytes_of_doubles(&front)]),
        number => (u64::from(number), vec![]),
    };
    Due { answer, also: None, fronts, held, of_words }
}
