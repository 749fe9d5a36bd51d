//! Writes small networks with solution sheets and the original's matrix, for a replay
//! without the original.
//!
//! A case is six little-endian 32-bit words: the bytes of wiring, readings, term_index,
//! term_coefficient and solution, and the number of triplets; then those five slices as they
//! are lent, and rows, columns and values as the call leaves them.

use std::fs::File;
use std::io::{BufWriter, Result, Write};

use crate::calls::{self, Site};
use crate::generate;
use crate::paper::{bytes_of_doubles, bytes_of_words, Lent, HEAD};
use crate::random::Rng;
use crate::solutions;

/// The bench network, the network without anything, then drawn ones.
fn case(seed: u64, serial: u64) -> (Site, Vec<f64>) {
    if serial == 0 {
        let (lent, solution) = calls::bench();
        return (Site::new(lent), solution);
    }
    if serial == 1 {
        let wiring = bytes_of_words(&[0; HEAD]);
        let readings = bytes_of_doubles(&[100.0]);
        return (Site::new(Lent { wiring, readings, ..Lent::default() }), vec![0.0]);
    }
    let mut rng = Rng::new(seed, serial);
    let sizes = generate::small_sizes(&mut rng);
    let mut parts = generate::parts(&mut rng, &sizes);
    solutions::tune(&mut rng, &mut parts);
    let site = Site::new(parts.encode());
    let solution = solutions::sound(&mut rng, &site, true);
    (site, solution)
}

pub fn write(seed: u64, count: u64, file: &str) -> Result<()> {
    let mut out = BufWriter::new(File::create(file)?);
    for serial in 0..count {
        let (site, solution) = case(seed, serial);
        assert!(site.held.lowest() == 0, "a recorded network is accepted");
        let list = site.oracle().jacobian(&solution);
        let rows: Vec<u32> = list.iter().map(|triplet| triplet.0 as u32).collect();
        let cols: Vec<u32> = list.iter().map(|triplet| triplet.1 as u32).collect();
        let values: Vec<f64> = list.iter().map(|triplet| triplet.2).collect();
        let mut slices: Vec<&[u8]> = site.lent.slices().to_vec();
        let sheet = bytes_of_doubles(&solution);
        slices.push(&sheet);
        for slice in &slices {
            out.write_all(&(slice.len() as u32).to_le_bytes())?;
        }
        out.write_all(&(list.len() as u32).to_le_bytes())?;
        for slice in &slices {
            out.write_all(slice)?;
        }
        out.write_all(&bytes_of_words(&rows))?;
        out.write_all(&bytes_of_words(&cols))?;
        out.write_all(&bytes_of_doubles(&values))?;
    }
    out.flush()
}
