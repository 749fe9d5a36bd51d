//! The exports and what a call of one is given beside the network.

use std::borrow::Cow;

use crate::report::hex;

/// The exports, in the order of their declarations.
#[derive(Clone, Copy, Debug, PartialEq, Eq)]
pub enum Export {
    OperandSelector,
    First,
    RightSide,
    Third,
    UnitScale,
}

pub const EXPORTS: usize = 5;
/// The most outputs of an export.
pub const SHEETS: usize = 4;

impl Export {
    pub const ALL: [Export; EXPORTS] = [
        Export::OperandSelector,
        Export::First,
        Export::RightSide,
        Export::Third,
        Export::UnitScale,
    ];

    pub fn name(self) -> &'static str {
        match self {
            Export::OperandSelector => "operand_selector",
            Export::First => "contraction_first",
            Export::RightSide => "right_side",
            Export::Third => "contraction_third",
            Export::UnitScale => "served_unit_scale",
        }
    }

    /// As it is linked.
    pub fn symbol(self) -> &'static str {
        match self {
            Export::OperandSelector => "sens_operand_selector",
            Export::First => "sens_contraction_first",
            Export::RightSide => "sens_right_side",
            Export::Third => "sens_contraction_third",
            Export::UnitScale => "sens_served_unit_scale",
        }
    }

    /// The lent outputs: the name of each and the bytes of its words.
    pub fn sheets(self) -> &'static [(&'static str, usize)] {
        match self {
            Export::OperandSelector => &[("sign", 8), ("counts", 4), ("rows", 4), ("weights", 8)],
            Export::First => &[("selection", 8)],
            Export::RightSide | Export::Third | Export::UnitScale => &[("out", 8)],
        }
    }

    pub fn takes_network(self) -> bool {
        matches!(self, Export::OperandSelector | Export::First | Export::Third)
    }
}

/// Words as an export takes them.
#[derive(Clone)]
pub enum Words<'a> {
    U32(Cow<'a, [u32]>),
    F64(Cow<'a, [f64]>),
}

impl<'a> From<&'a [u32]> for Words<'a> {
    fn from(words: &'a [u32]) -> Words<'a> {
        Words::U32(Cow::Borrowed(words))
    }
}

impl<'a> From<&'a [f64]> for Words<'a> {
    fn from(words: &'a [f64]) -> Words<'a> {
        Words::F64(Cow::Borrowed(words))
    }
}

impl From<Vec<u32>> for Words<'_> {
    fn from(words: Vec<u32>) -> Self {
        Words::U32(Cow::Owned(words))
    }
}

impl From<Vec<f64>> for Words<'_> {
    fn from(words: Vec<f64>) -> Self {
        Words::F64(Cow::Owned(words))
    }
}

impl Words<'_> {
    pub fn bytes(&self) -> &[u8] {
        let (start, length) = match self {
            Words::U32(words) => (words.as_ptr() as *const u8, 4 * words.len()),
            Words::F64(words) => (words.as_ptr() as *const u8, 8 * words.len()),
        };
        // Words of either kind are bytes without gaps.
        unsafe { std::slice::from_raw_parts(start, length) }
    }
}

/// A selector as lent: how many entries each element has, then all entries.
#[derive(Clone)]
pub struct Selector {
    pub sign: f64,
    pub counts: Vec<u32>,
    pub rows: Vec<u32>,
    pub weights: Vec<f64>,
}

impl Selector {
    /// From the original's map.
    pub fn new(map: &[Vec<(usize, f64)>], sign: f64) -> Selector {
        let entries = || map.iter().flatten();
        Selector {
            sign,
            counts: map.iter().map(|element| element.len() as u32).collect(),
            rows: entries().map(|entry| entry.0 as u32).collect(),
            weights: entries().map(|entry| entry.1).collect(),
        }
    }

    /// The original's map; the counts must sum to the entries.
    pub fn map(&self) -> Vec<Vec<(usize, f64)>> {
        let mut entries = self.rows.iter().zip(&self.weights).map(|(&row, &w)| (row as usize, w));
        let mut element = |&count: &u32| entries.by_ref().take(count as usize).collect();
        self.counts.iter().map(&mut element).collect()
    }

    fn lists(&self) -> Vec<(&'static str, Words<'_>)> {
        vec![
            ("counts", Words::from(&self.counts[..])),
            ("rows", Words::from(&self.rows[..])),
            ("weights", Words::from(&self.weights[..])),
        ]
    }
}

/// What the first and the third call share.
#[derive(Clone)]
pub struct Contraction {
    pub mode: u32,
    pub selector: Selector,
    pub columns: usize,
}

impl Contraction {
    pub fn elements(&self) -> usize {
        self.selector.counts.len()
    }
}

/// An export's arguments beside the network and the outputs.
#[derive(Clone)]
pub enum Call {
    OperandSelector { operand: u32 },
    First { contraction: Contraction },
    RightSide { mode: u32, count: usize, parameter: Vec<f64>, selection: Vec<f64> },
    Third { contraction: Contraction, parameter: Vec<f64>, solved: Vec<f64> },
    UnitScale { operand: u32, parameter: u32, base: f64 },
}

/// A call to make.
#[derive(Clone)]
pub struct Ask {
    pub call: Call,
    /// Words of each output.
    pub rooms: [usize; SHEETS],
    /// Whether bytes that may not move follow each output, instead of a page that may not be
    /// touched.
    pub behind: bool,
}

impl Ask {
    pub fn export(&self) -> Export {
        match self.call {
            Call::OperandSelector { .. } => Export::OperandSelector,
            Call::First { .. } => Export::First,
            Call::RightSide { .. } => Export::RightSide,
            Call::Third { .. } => Export::Third,
            Call::UnitScale { .. } => Export::UnitScale,
        }
    }

    pub fn contraction_mut(&mut self) -> Option<&mut Contraction> {
        match &mut self.call {
            Call::First { contraction } | Call::Third { contraction, .. } => Some(contraction),
            _ => None,
        }
    }

    /// The slices that are read, in the order of the declaration.
    pub fn lists(&self) -> Vec<(&'static str, Words<'_>)> {
        match &self.call {
            Call::First { contraction } => contraction.selector.lists(),
            Call::Third { contraction, parameter, solved } => {
                let mut lists = contraction.selector.lists();
                lists.push(("parameter", Words::from(&parameter[..])));
                lists.push(("solved", Words::from(&solved[..])));
                lists
            }
            Call::RightSide { parameter, selection, .. } => vec![
                ("parameter", Words::from(&parameter[..])),
                ("selection", Words::from(&selection[..])),
            ],
            Call::OperandSelector { .. } | Call::UnitScale { .. } => Vec::new(),
        }
    }

    pub fn size(&self) -> usize {
        let lists: usize = self.lists().iter().map(|list| list.1.bytes().len()).sum();
        lists + 8 * self.rooms.iter().sum::<usize>()
    }

    pub fn print(&self) {
        let show = |x: f64| format!("{:016x} ({:e})", x.to_bits(), x);
        match &self.call {
            Call::OperandSelector { operand } => println!("  operand: {}", operand),
            Call::First { contraction } | Call::Third { contraction, .. } => {
                println!("  mode: {}", contraction.mode);
                println!("  sign: {}", show(contraction.selector.sign));
                println!("  columns: {}", contraction.columns);
            }
            Call::RightSide { mode, count, .. } => println!("  mode: {}, count: {}", mode, count),
            Call::UnitScale { operand, parameter, base } => {
                println!("  operand: {}, parameter: {}, base: {}", operand, parameter, show(*base));
            }
        }
        for (name, words) in self.lists() {
            println!("  {} ({} bytes): {}", name, words.bytes().len(), hex(words.bytes()));
        }
        for (sheet, room) in self.export().sheets().iter().zip(self.rooms) {
            println!("  {}: {} words lent", sheet.0, room);
        }
    }
}
