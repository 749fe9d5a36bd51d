//! Times the exports beside the original Rust, in one run, on the same networks, and prints one table.
//!
//! An export is timed whole: decoding the bytes, testing the network and writing the result. The
//! original is handed its own structures, built beforehand, and tests nothing. Where a row differs its note
//! says so, in the legend under the table. Every result is compared with the original's before it is timed.

mod case;
mod change;
mod contraction;
mod matrix;
#[cfg(feature = "mock")]
#[path = "../../compare/src/mock.rs"]
mod mock;
mod model;
mod parameters;
mod program;
mod selectors;
mod timing;

use case::{Case, Size};
use std::time::Instant;
use timing::{median, Times};

const HELP: &str = "\
bench: times every export beside the original Rust and prints a table

  bench               all calls
  bench --call NAME   only calls whose name contains NAME
  bench --help        this text
";

const LEGEND: &str = "
port, Rust: microseconds a call, the median of 21 samples, taken of both sides in turn; a sample is as many
calls as last about 5 ms, or one. +-: half the distance between the quartiles, in percent of the median. ratio: of
the medians. Both sides are built for release. Every result was compared with the original's before timing.

The port's time has all tests of all that is lent, and by bytes the decoding and the encoding too. Its output
buffers are not cleared: every call finds them as the last one left them. The Rust gets its own structures, built
beforehand, tests nothing, and allocates and frees its results; memory that it frees is kept for its next call, so
that it costs no page faults.

e  one element: the port decodes and tests the whole network for it
o  one column, in a contraction one element and one column: the port decodes and tests the whole network for it, and
   in a contraction does so before and after the solve
n  the Rust has no such call
s  the Rust's call reads the sheet into its structures: that is timed in its turn as well and taken off
w  as s; writing the result as a sheet stays in, as in the port's time
k  the Rust's system is made in the call, for a change after the reading is set: it snaps the sheet and finds the
   flow duals and the index
r  the Rust's system is ready, its index with it
t  the Rust's matrices keep their triplets as they come: putting them in columns isn't timed
c  the calls before and after the solve together, without the solve; copies of the parameter sheet and of the solved
   columns are made for each call on both sides, and their time is taken off both, but for freeing them and for
   reading the clock
";

#[derive(Clone, Copy)]
pub enum Form {
    Words,
    Bytes,
}

/// The rows of calls whose name has `only` in it, each printed when it is done.
pub struct Table {
    only: String,
    rows: usize,
}

impl Table {
    fn head() {
        println!(
            "{:<36} {:<5} {:<17} {:>9} {:>6} {:>9} {:>6} {:>8} {:>4}",
            "call", "form", "size", "port us", "+-%", "Rust us", "+-%", "ratio", "note"
        );
    }

    /// A call's rows, one for each network.
    pub fn call(&mut self, name: &str, form: Form, note: &str, cases: &[Case], time: impl Fn(&Case) -> Times) {
        if name.contains(&self.only) {
            for case in cases {
                let Size { n, m, k } = case.size;
                self.row(name, form, &format!("n {n} m {m} k {k}"), note, time(case));
            }
        }
    }

    /// The row of a call that is lent no network.
    pub fn call_without_network(&mut self, name: &str, form: Form, note: &str, time: impl Fn() -> Times) {
        if name.contains(&self.only) {
            self.row(name, form, "-", note, time());
        }
    }

    fn row(&mut self, name: &str, form: Form, size: &str, note: &str, times: Times) {
        let form = match form {
            Form::Words => "words",
            Form::Bytes => "bytes",
        };
        let (port, port_spread) = median(times.port);
        let [rust, rust_spread, ratio] = match times.rust.map(median) {
            Some((rust, spread)) => [micros(rust), format!("{spread:.1}"), digits(port / rust)],
            None => ["-", "-", "-"].map(String::from),
        };
        let port = micros(port);
        if self.rows == 0 {
            Table::head();
        }
        let (port_side, rust_side) = (format!("{port:>9} {port_spread:>6.1}"), format!("{rust:>9} {rust_spread:>6}"));
        println!("{name:<36} {form:<5} {size:<17} {port_side} {rust_side} {ratio:>8} {note:>4}");
        self.rows += 1;
    }
}

fn micros(time: f64) -> String {
    if time < 1.0 {
        format!("{time:.4}")
    } else {
        digits(time)
    }
}

fn digits(x: f64) -> String {
    match x {
        _ if x < 100.0 => format!("{x:.2}"),
        _ if x < 1000.0 => format!("{x:.1}"),
        _ => format!("{x:.0}"),
    }
}

/// The part of the calls' names that was asked for, empty for all.
fn options() -> Result<String, String> {
    let given: Vec<String> = std::env::args().skip(1).collect();
    match &given.iter().map(String::as_str).collect::<Vec<_>>()[..] {
        [] => Ok(String::new()),
        ["--call", name] => Ok(name.to_string()),
        ["--help"] => {
            print!("{HELP}");
            std::process::exit(0);
        }
        _ => Err(format!("{} is no option of it\n\n{HELP}", given.join(" "))),
    }
}

/// The last minute's load, where the system tells it.
fn load() -> String {
    let told = std::fs::read_to_string("/proc/loadavg").unwrap_or_default();
    told.split(' ').next().filter(|load| !load.is_empty()).unwrap_or("unknown").to_string()
}

fn main() {
    let begun = Instant::now();
    let only = options().and_then(|only| oracle::self_test().map(|_| only).map_err(|why| why.to_string()));
    let mut table = match only {
        Ok(only) => Table { only, rows: 0 },
        Err(why) => {
            eprintln!("bench: {why}");
            std::process::exit(1);
        }
    };
    timing::keep_memory();
    let (cases, before) = (Case::all(), load());
    timing::warm_up();
    model::rows(&mut table, &cases);
    matrix::rows(&mut table, &cases);
    change::rows(&mut table, &cases);
    program::rows(&mut table, &cases);
    parameters::rows(&mut table, &cases);
    selectors::rows(&mut table, &cases);
    contraction::rows(&mut table, &cases);
    if table.rows == 0 {
        eprintln!("bench: no call has {:?} in its name", table.only);
        std::process::exit(1);
    }
    print!("{LEGEND}");
    println!("\n{} rows in {:.0} s; load {before} before, {} after", table.rows, begun.elapsed().as_secs_f64(), load());
}
