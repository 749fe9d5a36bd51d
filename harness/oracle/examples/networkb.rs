//! Prints what the original gives for document 01's network B, as examples/networkb.c does: number and
//! triplet count, then each triplet's row, column and value's bits.

use oracle::{bench_network, Oracle};

fn main() {
    let (network, solution) = bench_network();
    let list = Oracle::new(&network).jacobian(&solution);
    println!("0 {}", list.len());
    for (row, col, value) in list {
        println!("{row} {col} {:016x}", value.to_bits());
    }
}
