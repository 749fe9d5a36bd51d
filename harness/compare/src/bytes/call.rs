//! The exports on bytes and what a call of one is given beside the network.

use crate::report::hex;

/// The exports, in the order of their declarations.
#[derive(Clone, Copy, Debug, PartialEq, Eq)]
pub enum Export {
    ParameterJacobian,
    OperandSelector,
    First,
    RightSide,
    Third,
    UnitScale,
}

pub const EXPORTS: usize = 6;
/// The most outputs of an export.
pub const SHEETS: usize = 4;

impl Export {
    pub const ALL: [Export; EXPORTS] = [
        Export::ParameterJacobian,
        Export::OperandSelector,
        Export::First,
        Export::RightSide,
        Export::Third,
        Export::UnitScale,
    ];

    pub fn name(self) -> &'static str {
        match self {
            Export::ParameterJacobian => "capi_parameter_jacobian",
            Export::OperandSelector => "capi_operand_selector",
            Export::First => "capi_contraction_first",
            Export::RightSide => "capi_right_side",
            Export::Third => "capi_contraction_third",
            Export::UnitScale => "capi_served_unit_scale",
        }
    }

    /// The lent outputs: the name of each and the bytes of its words.
    pub fn sheets(self) -> &'static [(&'static str, usize)] {
        match self {
            Export::OperandSelector => &[("sign", 8), ("counts", 4), ("rows", 4), ("weights", 8)],
            Export::First => &[("selection", 8)],
            Export::ParameterJacobian | Export::RightSide => &[("sheet", 8)],
            Export::Third | Export::UnitScale => &[("out", 8)],
        }
    }

    pub fn takes_network(self) -> bool {
        !matches!(self, Export::RightSide | Export::UnitScale)
    }
}

/// A selector of one element, as lent.
#[derive(Clone)]
pub struct Element {
    pub mode: u32,
    pub sign: f64,
    pub entries: u32,
    pub rows: Vec<u8>,
    pub weights: Vec<u8>,
}

/// An export's arguments beside the network and the outputs.
#[derive(Clone)]
pub enum Call {
    ParameterJacobian { solution: Vec<u8>, parameter: u32, column: u32 },
    OperandSelector { operand: u32 },
    First { element: Element },
    RightSide { mode: u32, count: usize, parameter: Vec<u8>, selection: Vec<u8> },
    Third { element: Element, parameter: Vec<u8>, solved: Vec<u8> },
    UnitScale { operand: u32, parameter: u32, base: f64 },
}

/// A call to make.
#[derive(Clone)]
pub struct Ask {
    pub call: Call,
    /// Bytes of each output.
    pub rooms: [usize; SHEETS],
    /// Whether bytes that may not move follow each output, instead of a page that may not be
    /// touched.
    pub behind: bool,
}

/// A slice that is read.
#[derive(Clone, Copy)]
pub struct List<'a> {
    pub name: &'static str,
    /// Bytes of a word.
    pub size: usize,
    /// Whether the export holds only so many words of it.
    pub limited: bool,
    pub bytes: &'a [u8],
}

fn list<'a>(name: &'static str, size: usize, bytes: &'a [u8]) -> List<'a> {
    List { name, size, limited: true, bytes }
}

impl Ask {
    pub fn export(&self) -> Export {
        match self.call {
            Call::ParameterJacobian { .. } => Export::ParameterJacobian,
            Call::OperandSelector { .. } => Export::OperandSelector,
            Call::First { .. } => Export::First,
            Call::RightSide { .. } => Export::RightSide,
            Call::Third { .. } => Export::Third,
            Call::UnitScale { .. } => Export::UnitScale,
        }
    }

    /// The slices that are read, in the order of the declaration.
    pub fn lists(&self) -> Vec<List<'_>> {
        match &self.call {
            Call::ParameterJacobian { solution, .. } => {
                vec![List { limited: false, ..list("solution", 8, solution) }]
            }
            Call::First { element } => {
                vec![list("rows", 4, &element.rows), list("weights", 8, &element.weights)]
            }
            Call::Third { element, parameter, solved } => vec![
                list("rows", 4, &element.rows),
                list("weights", 8, &element.weights),
                list("parameter", 8, parameter),
                list("solved", 8, solved),
            ],
            Call::RightSide { parameter, selection, .. } => {
                vec![list("parameter", 8, parameter), list("selection", 8, selection)]
            }
            Call::OperandSelector { .. } | Call::UnitScale { .. } => Vec::new(),
        }
    }

    pub fn size(&self) -> usize {
        let lists: usize = self.lists().iter().map(|list| list.bytes.len()).sum();
        lists + self.rooms.iter().sum::<usize>()
    }

    pub fn print(&self) {
        let show = |x: f64| format!("{:016x} ({:e})", x.to_bits(), x);
        match &self.call {
            Call::ParameterJacobian { parameter, column, .. } => {
                println!("  parameter: {}, column: {}", parameter, column);
            }
            Call::OperandSelector { operand } => println!("  operand: {}", operand),
            Call::First { element } | Call::Third { element, .. } => {
                let Element { mode, sign, entries, .. } = element;
                println!("  mode: {}, sign: {}, entries: {}", mode, show(*sign), entries);
            }
            Call::RightSide { mode, count, .. } => println!("  mode: {}, count: {}", mode, count),
            Call::UnitScale { operand, parameter, base } => {
                println!("  operand: {}, parameter: {}, base: {}", operand, parameter, show(*base));
            }
        }
        for list in self.lists() {
            println!("  {} ({} bytes): {}", list.name, list.bytes.len(), hex(list.bytes));
        }
        for (sheet, room) in self.export().sheets().iter().zip(self.rooms) {
            println!("  {}: {} bytes lent", sheet.0, room);
        }
    }
}
