//! The one table of a run: for each exported call the cases that were run, those of them that were
//! refused, and the mismatches.

pub use exports::NAMES as EXPORTS;

/// The declarations that programs in C are given.
const HEADER: &str = include_str!("../../../include/cisternaloe.h");

/// What a run did with one export.
#[derive(Clone, Copy, Default)]
pub struct Cases {
    pub run: u64,
    /// Of these, the cases whose number is due to be another than 0. A right side has no number: those
    /// whose part is due to be empty.
    pub refused: u64,
    pub mismatches: u64,
}

impl Cases {
    fn and(self, other: Cases) -> Cases {
        Cases {
            run: self.run + other.run,
            refused: self.refused + other.refused,
            mismatches: self.mismatches + other.mismatches,
        }
    }
}

/// A row for each export.
pub struct Table([Cases; EXPORTS.len()]);

impl Table {
    pub fn new(cases: impl Iterator<Item = (&'static str, Cases)>) -> Table {
        let mut table = Table([Cases::default(); EXPORTS.len()]);
        for (export, cases) in cases {
            let place = EXPORTS.iter().position(|&name| name == export);
            let row = &mut table.0[place.expect("an export of the table")];
            *row = row.and(cases);
        }
        table
    }

    pub fn total(&self) -> Cases {
        self.0.iter().fold(Cases::default(), |sum, &cases| sum.and(cases))
    }

    /// Exports without a case, and those that the header declares and the table doesn't have.
    pub fn never_compared(&self) -> Vec<&'static str> {
        let rows = EXPORTS.iter().zip(&self.0).filter(|(_, cases)| cases.run == 0);
        let unlisted = declared().into_iter().filter(|name| !EXPORTS.contains(name));
        rows.map(|(&name, _)| name).chain(unlisted).collect()
    }

    pub fn print(&self, seed: u64) {
        let line = |call: &str, form: &str, cases: &Cases| {
            let Cases { run, refused, mismatches } = cases;
            println!("{:<32} {:<6} {:>12} {:>12} {:>12}", call, form, run, refused, mismatches);
        };
        println!(
            "{:<32} {:<6} {:>12} {:>12} {:>12}",
            "call", "form", "cases", "refused", "mismatches"
        );
        for (name, cases) in EXPORTS.iter().zip(&self.0) {
            line(name, form(name), cases);
        }
        line("total", "", &self.total());
        println!("seed {}", seed);
    }
}

/// What an export is lent: its prefix says so.
fn form(export: &str) -> &'static str {
    if export.starts_with("capi_") {
        "bytes"
    } else {
        "words"
    }
}

/// The names that the header declares: what stands before a bracket after the answer's type.
fn declared() -> Vec<&'static str> {
    let answers = ["uint64_t ", "uint32_t ", "size_t "];
    let after = |line: &'static str| answers.iter().find_map(|answer| line.strip_prefix(answer));
    let name = |rest: &'static str| rest.split('(').next().filter(|_| rest.contains('('));
    HEADER.lines().filter_map(after).filter_map(name).collect()
}
