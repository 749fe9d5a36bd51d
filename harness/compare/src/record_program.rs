//! Writes small networks with a solver's vectors and what the original makes of them, for a
//! replay without the original.
//!
//! A case is eight little-endian 32-bit words: the bytes of wiring, readings, term_index,
//! term_coefficient, x, z and of the answers, and 0; then those six slices as they are lent, the
//! objective's bits, and the answers. The answers are the triplets of A and of P as counts, P's
//! rows, columns and values, A's, q, b, the number of cones and their sizes; then the solution
//! sheet read from x, z and the objective, and its marginal values, of which there are none where a
//! word of the sheet is past 10^15. A zero is written as +0.

use std::fs::File;
use std::io::{BufWriter, Result, Write};

use crate::calls::{self, Length, Site};
use crate::generate::{self, value, Sizes};
use crate::paper::{
    bytes_of_doubles, bytes_of_words, within, Field, Lent, Parts, Wire, ALLOW_SHED, HEAD,
    OBJECTIVE, SHEET_LIMIT,
};
use crate::programs;
use crate::random::Rng;
use crate::solutions;

/// No case is longer than this.
const MOST: usize = 8 * 1024;

/// The bench network, the network without anything, one with everything, then drawn ones.
fn network(rng: &mut Rng, serial: u64) -> Lent {
    match serial {
        0 => calls::bench().0,
        1 => Lent {
            wiring: bytes_of_words(&[0; HEAD]),
            readings: bytes_of_doubles(&[100.0]),
            ..Lent::default()
        },
        2 => everything(rng).encode(),
        _ => {
            let sizes = generate::small_sizes(rng);
            let mut parts = generate::parts(rng, &sizes);
            solutions::tune(rng, &mut parts);
            programs::tune(rng, &mut parts);
            parts.encode()
        }
    }
}

/// A network in which everything occurs that the program tells apart.
fn everything(rng: &mut Rng) -> Parts {
    let counts = [5, 5, 3, 2, 3, 6, 12];
    let sizes = Sizes { counts, flow_terms: 0, generation_terms: 0 };
    let mut parts = generate::parts(rng, &sizes);
    parts.head[ALLOW_SHED] = 1;
    parts.head[OBJECTIVE] = 1;
    let wires: [(Wire, &[u32]); 11] = [
        // A branch from a bus to itself, two that are parallel.
        (Wire::BrFrom, &[0, 1, 2, 2, 4]),
        (Wire::BrTo, &[1, 2, 2, 1, 0]),
        (Wire::GenBus, &[0, 3, 3]),
        (Wire::Segments, &[0, 2, 1]),
        (Wire::References, &[4, 0]),
        (Wire::GeneratorFlags, &[1, 0, 1]),
        (Wire::ThermalFlags, &[1, 1, 0, 1, 0]),
        (Wire::AngleFlags, &[0, 1, 1, 1, 1]),
        // None, upper, lower, both, equality of two zeros, equality.
        (Wire::RowMasks, &[0, 1, 2, 3, 3, 3]),
        (Wire::FlowTerms, &[1, 2, 1, 1, 0, 1]),
        (Wire::GenerationTerms, &[1, 1, 1, 2, 0, 1]),
    ];
    for (wire, words) in wires {
        *parts.wire_mut(wire) = words.to_vec();
    }
    parts.term_index = vec![0, 1, 2, 2, 0, 3, 1, 4, 0, 2, 1, 2];
    parts.term_coefficient = vec![1.0, -1.0, 0.5, -2.0, 3.0, 0.0, 1.0, 1.5, -0.0, 2.0, 0.1, -0.7];
    let fields: [(Field, &[f64]); 10] = [
        (Field::Base, &[100.0]),
        (Field::B, &[-4.0, -9.0, -3.0, 0.0, -0.1]),
        (Field::Sw, &[1.0, 0.5, 1.0, 1.0, 0.0]),
        (Field::Cq, &[1.0, 0.0, 0.3]),
        (Field::Cl, &[-0.0, 2.0, 7.0]),
        // Above 0, small, at zero twice, below.
        (Field::Demand, &[1.0, 1e-7, 0.0, -0.0, -2.0]),
        (Field::Slopes, &[1.0, 0.0, -3.0]),
        (Field::Intercepts, &[0.0, 2.0, 0.5]),
        (Field::UpperMw, &[5.0, 60.0, 7.0, 80.0, 0.0, -30.0]),
        (Field::LowerMw, &[5.0, 6.0, -70.0, -80.0, -0.0, -30.0]),
    ];
    for (field, words) in fields {
        *parts.field_mut(field) = words.to_vec();
    }
    parts
}

fn plus_zero(words: &[f64]) -> Vec<f64> {
    words.iter().map(|&x| if x == 0.0 { 0.0 } else { x }).collect()
}

fn put_words(out: &mut Vec<u8>, words: impl Iterator<Item = usize>) {
    out.extend(bytes_of_words(&words.map(|word| word as u32).collect::<Vec<u32>>()));
}

fn put_doubles(out: &mut Vec<u8>, words: &[f64]) {
    out.extend(bytes_of_doubles(&plus_zero(words)));
}

/// What the original makes of a network and a solver's vectors.
fn answers(site: &Site, x: &[f64], z: &[f64], objective: f64) -> Vec<u8> {
    let program = site.oracle().assemble();
    let mut out = Vec::new();
    put_words(&mut out, [program.a.len(), program.p.len()].into_iter());
    for list in [&program.p, &program.a] {
        put_words(&mut out, list.iter().map(|triplet| triplet.0));
        put_words(&mut out, list.iter().map(|triplet| triplet.1));
        put_doubles(&mut out, &list.iter().map(|triplet| triplet.2).collect::<Vec<f64>>());
    }
    put_doubles(&mut out, &program.q);
    put_doubles(&mut out, &program.b);
    put_words(&mut out, std::iter::once(program.cones.len()));
    put_words(&mut out, program.cones.iter().copied());
    let solution = site.oracle().read_dc_solution(x, z, objective);
    put_doubles(&mut out, &solution);
    // A sheet with a word past its limit is refused.
    if solution.iter().all(|&word| within(word, SHEET_LIMIT)) {
        put_doubles(&mut out, &site.oracle().nodal_marginal_values(&solution));
    }
    out
}

fn case(seed: u64, serial: u64) -> Vec<u8> {
    let mut rng = Rng::new(seed, serial);
    let site = Site::new(network(&mut rng, serial));
    assert!(site.held.lowest() == 0, "a recorded network is accepted");
    let x = programs::sound(&mut rng, &site, Length::Columns);
    let z = programs::sound(&mut rng, &site, Length::Rows);
    let objective = value(&mut rng);
    let (x_bytes, z_bytes) = (bytes_of_doubles(&x), bytes_of_doubles(&z));
    let answers = answers(&site, &x, &z, objective);
    let mut slices: Vec<&[u8]> = site.lent.slices().to_vec();
    slices.extend([&x_bytes[..], &z_bytes]);
    let mut out = Vec::new();
    let lengths = slices.iter().map(|slice| slice.len());
    put_words(&mut out, lengths.chain([answers.len(), 0]));
    for slice in slices {
        out.extend(slice);
    }
    out.extend(objective.to_bits().to_le_bytes());
    out.extend(answers);
    assert!(out.len() <= MOST, "a recorded case is small");
    out
}

pub fn write(seed: u64, count: u64, file: &str) -> Result<()> {
    let mut out = BufWriter::new(File::create(file)?);
    for serial in 0..count {
        out.write_all(&case(seed, serial))?;
    }
    out.flush()
}
