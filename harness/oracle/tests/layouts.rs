//! Every reading, term and sheet word lands in its own field.

use oracle::{Differentiable, Mode, Network, Operand, Oracle, Parameter, Power};

/// Three buses, two branches, three generators (the second and the third
/// piecewise, two segments and one), two references, four linear rows.
fn network() -> (Network, Vec<f64>) {
    let wiring = vec![
        3, 2, 3, 2, 3, 4, 5, 1, 1, // counts, allow_shed, objective
        0, 1, 1, 2, // from, to
        0, 1, 2, 0, 2, 1, // generator buses, segments
        0, 2, // references
        1, 0, 1, 1, 0, 0, 1, // flags
        0, 1, 2, 3, // masks
        0, 1, 0, 2, 0, 0, 1, 1, // term counts, flow then generation
    ];
    let mut readings = vec![10.0, -2.0, -5.0, 1.0, 0.5, 0.0, 0.1, 0.0, -0.5, 7.0, 8.0];
    readings.extend([-0.5, -0.6, 0.5, 0.6]); // angmin, angmax
    readings.extend([0.0, 0.25, 0.5, 2.0, 3.0, 4.0]); // gmin, gmax
    readings.extend([1.0, 0.0, 0.0, 2.0, 0.0, 0.0, 3.0, 0.0, 0.0]); // cq, cl, cc
    readings.extend([30.0, 31.0, 32.0, 1.0, -1.0, 2.0]); // c_shed, demand
    readings.extend([0.125, 0.25, 0.5, 0.0, 0.0, 1.0]); // shunt, HVDC
    readings.extend([1.0, 4.0, 2.0, 0.0, -6.0, 1.0]); // slopes, intercepts
    readings.extend([90.0, 10.0, 91.0, 20.0, 92.0, 93.0, -10.0, -20.0]); // upper, lower
    let net = Network {
        wiring,
        readings,
        term_index: vec![1, 2, 0, 1, 1],
        term_coefficient: vec![3.0, 5.0, 7.0, 11.0, 13.0],
    };
    let words = Oracle::new(&net).solution_len();
    (net, (0..words).map(|word| 1.0 + word as f64).collect())
}

#[test]
fn model() {
    let oracle = Oracle::new(&network().0);
    assert_eq!([0, 1, 2].map(|i| oracle.shed_cap(i)), [1.0, 0.0, 2.0]);
    assert_eq!([0, 1].map(|e| oracle.current_flow_offset(e)), [0.0, -0.25]);
    assert_eq!(
        [0, 1, 2].map(|j| oracle.generator_cost(j, 2.0)),
        [11.0, 2.0, 5.0]
    );
    assert_eq!([0, 1, 2, 3].map(|row| oracle.row_kind(row)), [0, 1, 2, 3]);
    let values = [0, 1, 2, 3].map(|row| oracle.evaluate(row, &[2.0, 3.0], &[5.0, 7.0, 11.0]));
    assert_eq!(values, [0.0, 9.0, 55.0, 14.0 + 33.0 + 91.0]);
    assert_eq!(oracle.phase_withdrawal(), [0.0, -0.25, 0.25]);
    assert_eq!(oracle.network_withdrawal(), [0.125, 0.0, -0.25]);
    assert_eq!(oracle.current_fixed_withdrawal(), [1.125, -1.0, 1.75]);
    let susceptance = oracle.susceptance_coo();
    assert_eq!(susceptance.len(), 7);
    assert_eq!(susceptance[3], (1, 1, 4.5));
}

#[test]
fn program() {
    let oracle = Oracle::new(&network().0);
    let (layout, program) = (oracle.layout(), oracle.assemble());
    assert_eq!(
        (layout.columns, layout.rows),
        (program.columns, program.rows)
    );
    // Balance 3, flow 2, reference 2; then pairs of limits, segments, linear rows.
    assert_eq!(layout.thermal, [Some((7, 8)), None]);
    assert_eq!(layout.generator, [Some((9, 11)), None, Some((10, 12))]);
    assert_eq!(layout.shed, [Some((13, 15)), None, Some((14, 16))]);
    assert_eq!(layout.angle, [None, Some((17, 18))]);
    assert_eq!(layout.shed_column, [Some(8), None, Some(9)]);
    assert_eq!(layout.cost_column, [None, Some(10), Some(11)]);
    assert_eq!(layout.segment_start, [None, Some(19), Some(21)]);
    let none = [None; 3];
    let one = |row| [Some(row), None, None];
    let rows = [
        none,
        one(22),
        [None, Some(23), None],
        [Some(24), Some(25), None],
    ];
    assert_eq!(layout.linear, rows);
    assert_eq!(program.cones, [7, 15, 4]);
    assert_eq!(program.b[22..], [1.0, 1.0, 2.0, 2.0]);
    assert_eq!(program.p, [(3, 3, 2.0)]);
}

#[test]
fn sheets() {
    let (net, solution) = network();
    let oracle = Oracle::new(&net);
    let starts = oracle.block_starts();
    assert_eq!(starts.dim, oracle.dim());
    assert_eq!(
        (starts.cost, starts.lam_lb),
        (vec![None, Some(11), Some(12)], 13)
    );
    assert_eq!(starts.nu_bal + 3 + 2 + 2, starts.dim);
    assert_eq!(
        oracle.nodal_marginal_values(&solution)[0],
        solution[11] / 10.0
    );
    // x and z by column and row: pg, f, psh, the first linear dual and the epigraphs.
    let layout = oracle.layout();
    let x: Vec<f64> = (0..layout.columns).map(|c| 100.0 + c as f64).collect();
    let z: Vec<f64> = (0..layout.rows).map(|r| 200.0 + r as f64).collect();
    let sheet = oracle.read_dc_solution(&x, &z, 7.0);
    assert_eq!(sheet.len(), oracle.solution_len());
    assert_eq!(
        sheet[..11],
        [100., 101., 102., 103., 104., 105., 106., 107., 108., 0., 109.]
    );
    assert_eq!(sheet[11..14], [-200.0, -201.0, -202.0]);
    let tail = 5 * 3 + 3 * 3 + 5 * 2;
    assert_eq!(sheet[tail..tail + 5], [110.0, 111.0, 219.0, 220.0, 221.0]);
    assert_eq!(
        sheet[tail + 5..tail + 9],
        [0.0, 222.0, -223.0, 224.0 - 225.0]
    );
    // Duals of rows that bind at this point; snapping changes no other word.
    assert_eq!(oracle.snap_linear(&solution).len(), 4);
    let snapped = oracle.snap(&solution);
    assert_eq!(
        snapped[..14],
        [&solution[..8], &[1.0, 0.0, 2.0][..], &solution[11..14]].concat()
    );
    assert_eq!(snapped[tail + 5..], solution[tail + 5..]);
    assert_eq!(oracle.nu_flow_values(&solution).len(), 2);
}

#[test]
fn contraction() {
    let (net, solution) = network();
    let oracle = Oracle::new(&net);
    let (dim, list) = (oracle.dim(), oracle.jacobian(&solution));
    assert!(list.iter().all(|&(r, c, v)| r < dim && c < dim && v != 0.0));
    let demand = Parameter::Demand(Power::Active);
    let sheet = oracle
        .parameter_jacobian(&solution, demand, &[0, 2])
        .unwrap();
    assert_eq!(sheet[..dim], oracle.parameter_jacobian_demand(&solution, 0));
    assert_eq!(sheet[dim..], oracle.parameter_jacobian_demand(&solution, 2));
    let selector = oracle
        .operand_selector(Operand::Dispatch(Power::Active))
        .unwrap();
    let whole = |mode| {
        oracle::forward_adjoint(
            dim,
            &list,
            sheet.clone(),
            &selector.map,
            -1.0,
            mode,
            2,
            |list, right, n| {
                let spec = oracle.kkt(&solution).solve_spec();
                oracle::solve_refined(dim, list, right, n, spec).unwrap()
            },
        )
    };
    let (forward, adjoint) = (whole(Mode::Forward), whole(Mode::Adjoint));
    assert_eq!((forward.len(), forward[0].len()), (3, 2));
    for (a, b) in forward.iter().flatten().zip(adjoint.iter().flatten()) {
        assert!((a - b).abs() <= 1e-6 * (1.0 + a.abs()), "{a} {b}");
    }
    let price = Operand::Price(Power::Active);
    assert_eq!(oracle::served_unit_scale(price, demand, 10.0), 0.1 / 10.0);
}
