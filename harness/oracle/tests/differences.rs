//! The smallest examples of docs/DIFFERENCES.md, run on the original.

use oracle::{Network, Oracle, Parameter, GB};

/// One bus and two reference places at it: dim is va 1, psh 1, mu_lb 1, mu_ub 1, nu_bal 1, eta 2.
#[test]
fn a_repeated_reference() {
    let net = Network {
        wiring: vec![1, 0, 0, 2, 0, 0, 0, 0, 1, 0, 0],
        readings: vec![100.0, 3.0, 0.0, 0.0, 0.0],
        term_index: vec![],
        term_coefficient: vec![],
    };
    let oracle = Oracle::new(&net);
    let list = oracle.jacobian(&vec![0.0; oracle.solution_len()]);
    assert_eq!(oracle.dim(), 7);
    let cell = |row, col| list.iter().filter(|t| (t.0, t.1) == (row, col)).count();
    assert_eq!((cell(5, 0), cell(6, 0)), (1, 0));
    assert_eq!((cell(0, 5), cell(0, 6)), (1, 1));
}

/// The same bus is fixed, since shedding is off: a unit at (mu_lb, psh) and at the mu_ub diagonal.
#[test]
fn a_fixed_bus() {
    let net = Network {
        wiring: vec![1, 0, 0, 0, 0, 0, 0, 0, 1],
        readings: vec![100.0, 3.0, 0.0, 0.0, 0.0],
        term_index: vec![],
        term_coefficient: vec![],
    };
    let oracle = Oracle::new(&net);
    let list = oracle.jacobian(&vec![1.0; oracle.solution_len()]);
    let value = |row, col| list.iter().find(|t| (t.0, t.1) == (row, col)).map(|t| t.2);
    assert_eq!((value(2, 1), value(3, 3)), (Some(1.0), Some(1.0)));
    assert_eq!((value(3, 1), value(2, 2)), (None, None));
}

/// One generator and a linear row of it, with raw words within 10^12: the row's value is past 10^15.
#[test]
fn a_sheet_past_its_limit() {
    let net = Network {
        wiring: vec![1, 0, 1, 0, 0, 1, 1, 0, 1, 0, 0, 1, 0, 0, 1],
        readings: vec![100.0, 0.0, 2.0, 1.0, 0.0, 0.0, 3.0, 1.0, 0.0, 0.0, 0.0, 0.0],
        term_index: vec![0],
        term_coefficient: vec![1e12],
    };
    let oracle = Oracle::new(&net);
    let sheet = oracle.read_dc_solution(&[0.0, 1e4], &[0.0; 3], 0.0);
    assert_eq!(sheet.len(), oracle.solution_len());
    assert_eq!(sheet[sheet.len() - 2], 1e16);
}

/// One bus and a branch from it to itself: va 0, f 1, psh 2, lam_lb 3, lam_ub 4, gamma_lb 5, gamma_ub 6,
/// mu_lb 7, mu_ub 8, nu_bal 9, nu_flow 10.
fn a_loop(flow_offset: f64, flags: u32) -> Oracle {
    Oracle::new(&Network {
        wiring: vec![1, 1, 0, 0, 0, 0, 0, 0, 1, 0, 0, flags, flags],
        readings: vec![100.0, -4.0, 1.0, 1.0, flow_offset, 4.0, -0.5, 0.5, 3.0, 0.0, 0.0, 0.0],
        term_index: vec![],
        term_coefficient: vec![],
    })
}

/// The susceptance column has -sw shift in the flow's row, whether the offset moves with b or not.
#[test]
fn a_susceptance_column() {
    let susceptance = Parameter::SeriesAdmittance(GB::Susceptance);
    for flow_offset in [-4.0, 0.0] {
        let oracle = a_loop(flow_offset, 1);
        let sheet = vec![0.0; oracle.solution_len()];
        let Ok(column) = oracle.parameter_jacobian(&sheet, susceptance, &[0]) else {
            panic!("susceptances are served");
        };
        assert_eq!((column.len(), column[10]), (11, -1.0));
    }
}

/// The matrix has the rows of a limit whose flag is off; the program has none for it.
#[test]
fn a_limit_whose_flag_is_off() {
    let (on, off) = (a_loop(-4.0, 1), a_loop(-4.0, 0));
    let sheet = vec![0.0; on.solution_len()];
    assert_eq!(on.jacobian(&sheet), off.jacobian(&sheet));
    assert!(off.jacobian(&sheet).contains(&(3, 3, 4.0)));
    assert_eq!((on.assemble().rows, off.assemble().rows), (6, 2));
}
