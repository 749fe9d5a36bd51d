//! What must hold before any comparison: two facts of the compiler, and the bench
//! network's answers as the original gives them.

use crate::{Network, Oracle};
use std::hint::black_box;

/// Network B and its solution sheet.
pub fn bench_network() -> (Network, Vec<f64>) {
    let wiring = vec![
        2, 1, 1, 1, 0, 0, 0, // n, m, k, R, S, q, T
        0, 1, // allow_shed, objective
        0, 1, // branch from 0 to 1
        0, 0, // generator at 0, no segments
        0, // reference
        1, 1, 1, // generator, thermal and angle flags
    ];
    let readings = vec![
        100.0, // base
        -4.0, 1.0, 0.0, 0.0, 4.0, -0.5, 0.5, // b, sw, shift, offset, fmax, angmin, angmax
        0.0, 2.0, 1.0, 0.0, 0.0, // gmin, gmax, cq, cl, cc
        3.0, 3.0, // c_shed
        0.0, 1.0, // demand
        0.0, 0.0, // shunt
        0.0, 0.0, // HVDC
    ];
    let solution = vec![
        0.0, -0.25, // va
        1.0, 1.0, // pg, f
        0.0, 0.0, // psh
        2.0, 2.0, // nu_bal
        0.0, 0.0, 0.0, 0.0, // lam_ub, lam_lb, rho_ub, rho_lb
        0.0, 0.0, // mu_ub
        1.0, 1.0, // mu_lb
        0.0, 0.0, // gamma_ub, gamma_lb
        1.0, // objective
    ];
    let none = (Vec::new(), Vec::new());
    (
        Network {
            wiring,
            readings,
            term_index: none.0,
            term_coefficient: none.1,
        },
        solution,
    )
}

/// Words of network B and its sheet that the cases below change.
const FMAX: usize = 5;
const ANGMAX: usize = 7;
const DEMAND: usize = 15;
const ALLOW_SHED: usize = 7;
const SEGMENTS: usize = 12;
const PSH: usize = 4;
const MU_UB: usize = 12;
const MU_LB: usize = 14;
const GAMMA_UB: usize = 16;

fn expect(holds: bool, what: &str) -> Result<(), String> {
    if holds {
        Ok(())
    } else {
        Err(what.to_owned())
    }
}

/// Zeros as the compiler has them, by themselves and through the original.
fn compiler_facts() -> Result<(), String> {
    const RELEASE: &str = "max of a zero and 0 isn't +0: build in release";
    const SUM: &str = "Iterator::sum doesn't begin at -0 in this rustc: signs of zero sums differ";
    let minus = (-0.0f64).to_bits();
    for zero in [0.0f64, -0.0] {
        expect(black_box(zero).max(0.0).to_bits() == 0, RELEASE)?;
    }
    for words in [&[][..], &[-0.0], &[-0.0, -0.0]] {
        let sum: f64 = black_box(words).iter().copied().sum();
        expect(sum.to_bits() == minus, SUM)?;
    }
    let tolerance = Oracle::snap_tolerance();
    expect(
        tolerance.to_bits() == 0x3eb0_c6f7_a0b5_ed8d,
        "bits of the tolerance",
    )?;
    expect(
        tolerance == black_box(1.0) / black_box(1_000_000.0),
        "tolerance as a quotient",
    )?;

    let (mut net, mut solution) = bench_network();
    net.wiring[ALLOW_SHED] = 1;
    net.readings[DEMAND] = -0.0;
    net.readings[ANGMAX] = tolerance;
    solution[1] = 0.0;
    solution[GAMMA_UB] = -0.0;
    let case = Oracle::new(&net);
    expect(case.shed_cap(0).to_bits() == 0, RELEASE)?;
    expect(case.snap(&solution)[GAMMA_UB].to_bits() == 0, RELEASE)?;

    // A row without terms, and a generator with two segments at the two zeros.
    net.wiring[4] = 2;
    net.wiring[5] = 1;
    net.wiring[SEGMENTS] = 2;
    net.wiring.extend([0, 0, 0]);
    for zero in [0.0f64, -0.0] {
        let mut net = net.clone();
        net.readings.extend([zero, -zero, zero, -zero, 0.0, 0.0]);
        let case = Oracle::new(&net);
        expect(case.evaluate(0, &[1.0], &[1.0]).to_bits() == minus, SUM)?;
        let cost = case.generator_cost(0, 1.0);
        expect(
            cost.to_bits() == zero.to_bits(),
            "of equal segment values the first isn't kept",
        )?;
    }
    Ok(())
}

/// The start-up tests. An error names the first fact that doesn't hold.
pub fn self_test() -> Result<(), String> {
    compiler_facts()?;
    let (net, solution) = bench_network();
    let bench = Oracle::new(&net);

    let starts = bench.block_starts();
    let b1 = (bench.dim(), starts.nu_bal, starts.eta);
    expect(b1 == (20, 16, 19), "B1: dim 20, nu_bal at 16, eta at 19")?;
    expect(
        bench.solution_len() == solution.len(),
        "the bench sheet's length",
    )?;

    let list = bench.jacobian(&solution);
    expect(list.len() == 45, "B2: 45 triplets")?;
    let first = [(18, 0, -4.0), (16, 0, -4.0), (17, 0, 4.0), (19, 0, 1.0)];
    expect(list[..4] == first, "B2: the first four triplets")?;

    let (program, layout) = (bench.assemble(), bench.layout());
    let b3 = (
        program.columns,
        program.rows,
        program.a.len(),
        program.p.len(),
    );
    expect(
        b3 == (4, 10, 17, 1),
        "B3: 4 columns, 10 rows, 17 of A, 1 of P",
    )?;
    expect(
        (layout.columns, layout.rows) == (4, 10),
        "B3: the layout's size",
    )?;
    expect(layout.thermal == [Some((4, 5))], "B3: thermal rows 4 and 5")?;
    expect(layout.angle == [Some((8, 9))], "B3: angle rows 8 and 9")?;
    expect(program.cones == [4, 6], "B3: cones of 4 and 6")?;

    let tolerance = Oracle::snap_tolerance();
    for (demand, column, fixed) in [
        (1e-7, true, true),
        (tolerance, true, false),
        (0.0, false, true),
    ] {
        let mut net = net.clone();
        net.wiring[ALLOW_SHED] = 1;
        net.readings[DEMAND + 1] = demand;
        let case = Oracle::new(&net);
        expect(
            case.layout().shed_column[1].is_some() == column,
            "B4: the shed column",
        )?;
        // A fixed bus has 1 in its own mu_ub cell and no cell beside it in the
        // shed column.
        let own = (starts.mu_ub + 1, starts.mu_ub + 1, 1.0);
        expect(
            case.jacobian(&solution).contains(&own) == fixed,
            "B4: fixed in the matrix",
        )?;
    }

    let (mut flat, mut even) = (net.clone(), solution.clone());
    flat.readings[ANGMAX] = tolerance;
    even[1] = 0.0;
    even[GAMMA_UB] = 1.0;
    expect(
        Oracle::new(&flat).snap(&even)[GAMMA_UB] == 1.0,
        "B5: gamma_ub kept",
    )?;

    let (mut open, mut shed) = (net.clone(), solution.clone());
    open.wiring[ALLOW_SHED] = 1;
    shed[PSH + 1] = tolerance;
    shed[MU_UB + 1] = 1.0;
    let shed = Oracle::new(&open).snap(&shed);
    let b6 = (shed[PSH + 1], shed[MU_UB + 1], shed[MU_LB + 1]);
    expect(b6 == (tolerance, 0.0, 0.0), "B6: shed kept, both mu 0")?;

    let mut row = net.clone();
    row.wiring[5] = 1;
    row.wiring.extend([3, 0, 0]);
    row.readings.extend([-0.0, 0.0]);
    let row = Oracle::new(&row);
    expect(
        row.is_equality(0) && row.row_kind(0) == 4,
        "B7: limits -0 and +0 are an equality",
    )?;

    let mut column = vec![0.0; 20];
    column[17] = -1.0;
    expect(
        bench.parameter_jacobian_demand(&solution, 1) == column,
        "B8: the demand column",
    )?;

    let mut raised = net.clone();
    raised.readings[FMAX] = 6.0;
    let raised = Oracle::new(&raised).jacobian(&solution);
    let moved: Vec<_> = raised.iter().filter(|cell| !list.contains(cell)).collect();
    expect(
        raised.len() == 45 && moved == [&(6, 6, 7.0), &(7, 7, 5.0)],
        "B11: fmax to 6",
    )?;

    let empty = Network {
        wiring: vec![0; 9],
        readings: vec![1.0],
        ..net
    };
    let empty = Oracle::new(&empty);
    expect(
        empty.dim() == 0 && empty.jacobian(&[0.0]).is_empty(),
        "B9: all counts 0",
    )
}
