//! The original's DC part, built unchanged, answering in plain numbers.
//!
//! A network and a solution come in the layouts of the scope paper; answers go out
//! as the original gives them, in its own order. Build it in release: there
//! `max` with 0 gives +0 for either zero.
#![allow(
    dead_code,
    private_interfaces,
    unexpected_cfgs,
    unknown_lints,
    unreachable_code,
    unreachable_patterns,
    unused,
    clippy::all
)]

extern crate powerio as powerio_matrix;
extern crate powerio as powerio_prob;
extern crate powerio as powerio_tx;

include!(concat!(env!("OUT_DIR"), "/root.rs"));

mod check;

use clarabel::algebra::CscMatrix;
use clarabel::solver::SupportedConeT;
use faer::Mat;
use model::{DcNetwork, LinearRow, PiecewiseCost};
use powerio::PreparedObjective;
use problem::DcOpfSolution;

pub use check::{bench_network, self_test};
pub use sens::{
    functional_gradient, sensitivity, weighted_sensitivity, Axis, Bound, CostTerm, DcKkt,
    Differentiable, End, Mode, Operand, Parameter, Power, Selector, SensError, SensitivityMatrix,
    SolveSpec, TapKind, VoltageKind, GB,
};

pub type Triplets = Vec<(usize, usize, f64)>;

/// A network in the scope paper's layout, its terms as two slices.
#[derive(Clone, Debug, PartialEq)]
pub struct Network {
    pub wiring: Vec<u32>,
    pub readings: Vec<f64>,
    pub term_index: Vec<u32>,
    pub term_coefficient: Vec<f64>,
}

/// What `assemble_opf` builds: triplets as emitted, cones as sizes.
#[derive(Clone, Debug, PartialEq)]
pub struct Assembly {
    pub p: Triplets,
    pub a: Triplets,
    pub q: Vec<f64>,
    pub b: Vec<f64>,
    pub cones: Vec<usize>,
    pub columns: usize,
    pub rows: usize,
}

/// The fields of the original's `OpfLayout`: columns and rows of the program. Each
/// limit has its (upper, lower) rows, a linear row (upper, lower, equality).
#[derive(Clone, Debug, PartialEq)]
pub struct Layout {
    pub columns: usize,
    pub rows: usize,
    pub thermal: Vec<Option<(usize, usize)>>,
    pub generator: Vec<Option<(usize, usize)>>,
    pub shed: Vec<Option<(usize, usize)>>,
    pub angle: Vec<Option<(usize, usize)>>,
    pub shed_column: Vec<Option<usize>>,
    pub cost_column: Vec<Option<usize>>,
    pub segment_start: Vec<Option<usize>>,
    pub linear: Vec<[Option<usize>; 3]>,
}

/// The fields of the original's `KktIdx`. Cost columns and segment rows are per
/// generator, linear rows are (upper, lower, equality).
#[derive(Clone, Debug, PartialEq)]
pub struct BlockStarts {
    pub dim: usize,
    pub va: usize,
    pub pg: usize,
    pub f: usize,
    pub psh: usize,
    pub cost: Vec<Option<usize>>,
    pub lam_lb: usize,
    pub lam_ub: usize,
    pub gamma_lb: usize,
    pub gamma_ub: usize,
    pub rho_lb: usize,
    pub rho_ub: usize,
    pub mu_lb: usize,
    pub mu_ub: usize,
    pub cost_segment_dual: Vec<Option<usize>>,
    pub linear: Vec<[Option<usize>; 3]>,
    pub nu_bal: usize,
    pub nu_flow: usize,
    pub eta: usize,
}

/// One network as the original holds it.
#[derive(Clone)]
pub struct Oracle {
    dc: DcNetwork,
}

/// One solution as the original holds it.
#[derive(Clone)]
pub struct Solved(DcOpfSolution);

/// One program as the original holds it.
pub struct Program(problem::OpfProgram);

/// What a solver hands over, as the original holds it.
pub struct Raw(solve::RawSolution);

fn take<'a, T>(rest: &mut &'a [T], count: usize) -> &'a [T] {
    let (front, back) = rest.split_at(count);
    *rest = back;
    front
}

impl Oracle {
    /// From an accepted network: the caller guarantees lengths and ranges.
    pub fn new(net: &Network) -> Oracle {
        let mut wiring = &net.wiring[..];
        let mut indices = |count: usize| -> Vec<usize> {
            take(&mut wiring, count)
                .iter()
                .map(|&word| word as usize)
                .collect()
        };
        let head = indices(9);
        let (n, m, k, q) = (head[0], head[1], head[2], head[5]);
        let (br_from, br_to, gen_bus) = (indices(m), indices(m), indices(k));
        let segments = indices(k);
        let ref_buses = indices(head[3]);
        let mut flags = |count| -> Vec<bool> { indices(count).iter().map(|&w| w == 1).collect() };
        let generator_capability_active = flags(k);
        let thermal_limit_active = flags(m);
        let angle_bound_active = flags(m);
        let (masks, flow_counts, generation_counts) = (indices(q), indices(q), indices(q));
        assert!(wiring.is_empty());

        let mut readings = &net.readings[..];
        let mut doubles = |count: usize| take(&mut readings, count).to_vec();
        let base_mva = doubles(1)[0];
        let (b, sw, shift, flow_offset) = (doubles(m), doubles(m), doubles(m), doubles(m));
        let (fmax, angmin, angmax) = (doubles(m), doubles(m), doubles(m));
        let (gmin, gmax, cq) = (doubles(k), doubles(k), doubles(k));
        let (cl, cc) = (doubles(k), doubles(k));
        let (c_shed, demand) = (doubles(n), doubles(n));
        let (shunt_conductance, hvdc_injection) = (doubles(n), doubles(n));
        let (slopes, intercepts) = (doubles(head[4]), doubles(head[4]));
        let (upper, lower) = (doubles(q), doubles(q));
        assert!(readings.is_empty());

        let (mut slopes, mut intercepts) = (&slopes[..], &intercepts[..]);
        let piecewise_costs = segments
            .iter()
            .map(|&count| {
                (count > 0).then(|| PiecewiseCost {
                    slopes: take(&mut slopes, count).to_vec(),
                    intercepts: take(&mut intercepts, count).to_vec(),
                })
            })
            .collect();
        assert!(slopes.is_empty() && intercepts.is_empty());

        let (mut index, mut coefficient) = (&net.term_index[..], &net.term_coefficient[..]);
        let mut terms = |count: usize| -> Vec<(usize, f64)> {
            let index = take(&mut index, count).iter().map(|&word| word as usize);
            index
                .zip(take(&mut coefficient, count).iter().copied())
                .collect()
        };
        let linear_rows = (0..q)
            .map(|row| LinearRow {
                id: format!("row {row}"),
                flow: terms(flow_counts[row]),
                generation: terms(generation_counts[row]),
                lower_mw: (masks[row] & 2 != 0).then(|| lower[row]),
                upper_mw: (masks[row] & 1 != 0).then(|| upper[row]),
            })
            .collect();
        assert!(index.is_empty() && coefficient.is_empty());

        Oracle {
            dc: DcNetwork {
                n,
                m,
                k,
                br_from,
                br_to,
                gen_bus,
                b,
                sw,
                shift,
                flow_offset,
                fmax,
                gmax,
                gmin,
                angmin,
                angmax,
                cq,
                cl,
                cc,
                piecewise_costs,
                c_shed,
                demand,
                shunt_conductance,
                hvdc_injection,
                ref_buses,
                allow_shed: head[7] == 1,
                objective: match head[8] {
                    0 => PreparedObjective::Feasibility,
                    1 => PreparedObjective::NetworkGeneratorCost,
                    _ => PreparedObjective::Other,
                },
                generator_capability_active,
                thermal_limit_active,
                angle_bound_active,
                thermal_rated: vec![true; m],
                bus_ids: (0..n).collect(),
                bus_analysis_rows: (0..n).collect(),
                bus_source_rows: vec![None; n],
                branch_ids: (0..m).collect(),
                branch_identities: vec![String::new(); m],
                gen_ids: (0..k).collect(),
                branch_source_rows: vec![None; m],
                branch_sources: Vec::new(),
                gen_source_rows: vec![None; k],
                bus_uids: vec![None; n],
                branch_uids: vec![None; m],
                gen_uids: vec![None; k],
                linear_rows,
                base_mva,
                diagnostics: Vec::new(),
            },
        }
    }

    /// One reading set in place, as a site change sets it.
    pub fn set_fmax(&mut self, branch: usize, fmax: f64) {
        self.dc.fmax[branch] = fmax;
    }

    // The model.

    pub fn shed_cap(&self, bus: usize) -> f64 {
        self.dc.shed_cap(bus)
    }

    pub fn current_flow_offset(&self, branch: usize) -> f64 {
        self.dc.current_flow_offset(branch)
    }

    pub fn generator_cost(&self, generator: usize, power: f64) -> f64 {
        self.dc.generator_cost(generator, power)
    }

    pub fn evaluate(&self, row: usize, f: &[f64], pg: &[f64]) -> f64 {
        self.dc.linear_rows[row].evaluate(f, pg)
    }

    pub fn is_equality(&self, row: usize) -> bool {
        self.dc.linear_rows[row].is_equality()
    }

    /// 0 none, 1 upper, 2 lower, 3 both, 4 equality.
    pub fn row_kind(&self, row: usize) -> u32 {
        let row = &self.dc.linear_rows[row];
        match (row.upper_mw, row.lower_mw) {
            _ if row.is_equality() => 4,
            (None, None) => 0,
            (Some(_), None) => 1,
            (None, Some(_)) => 2,
            (Some(_), Some(_)) => 3,
        }
    }

    pub fn phase_withdrawal(&self) -> Vec<f64> {
        self.dc.phase_withdrawal()
    }

    pub fn network_withdrawal(&self) -> Vec<f64> {
        self.dc.network_withdrawal()
    }

    pub fn current_fixed_withdrawal(&self) -> Vec<f64> {
        self.dc.current_fixed_withdrawal()
    }

    pub fn susceptance_coo(&self) -> Triplets {
        self.dc.susceptance_coo()
    }

    // The program. `layout`, `read_dc_solution` and `read_raw` are in access/problem.rs.

    /// The original's program itself, so that taking it apart isn't timed.
    pub fn program(&self) -> Program {
        Program(problem::build_opf(&formulation::Dc::new(), &self.dc))
    }

    pub fn assemble(&self) -> Assembly {
        let Program(program) = self.program();
        let triplets = |matrix: &CscMatrix<f64>| -> Triplets {
            (0..matrix.values.len())
                .map(|at| (matrix.rows[at], matrix.cols[at], matrix.values[at]))
                .collect()
        };
        let size = |cone: &SupportedConeT<f64>| match *cone {
            SupportedConeT::ZeroConeT(size) | SupportedConeT::NonnegativeConeT(size) => size,
            SupportedConeT::PowerConeT(_) => unreachable!(),
        };
        Assembly {
            p: triplets(&program.p),
            a: triplets(&program.a),
            cones: program.cones.iter().map(size).collect(),
            columns: program.a.n,
            rows: program.a.m,
            q: program.q,
            b: program.b,
        }
    }

    pub fn nodal_marginal_values(&self, solution: &[f64]) -> Vec<f64> {
        self.solution(solution)
            .nodal_marginal_values(self.dc.base_mva)
    }

    // The matrix. `block_starts`, `snap`, `snap_linear`, `linear_signed` and
    // `nu_flow_values` are in access/sens.rs.

    /// The original's system itself; its methods are those of `Differentiable`.
    pub fn kkt(&self, solution: &[f64]) -> DcKkt<'_> {
        DcKkt::new(&self.dc, &self.solution(solution))
    }

    /// A sheet as the original holds it, so that reading it isn't timed.
    pub fn solved(&self, solution: &[f64]) -> Solved {
        Solved(self.solution(solution))
    }

    /// A solver's columns and its objective as the original holds them.
    pub fn raw(&self, x: &[f64], z: &[f64], objective: f64) -> Raw {
        Raw(solve::RawSolution {
            x: x.to_vec(),
            z: z.to_vec(),
            objective,
            iterations: Vec::new(),
        })
    }

    pub fn kkt_of(&self, solved: &Solved) -> DcKkt<'_> {
        DcKkt::new(&self.dc, &solved.0)
    }

    pub fn dim(&self) -> usize {
        self.block_starts().dim
    }

    /// In the order of emission.
    pub fn jacobian(&self, solution: &[f64]) -> Triplets {
        self.kkt(solution).jacobian()
    }

    /// Column after column, `dim` words each.
    pub fn parameter_jacobian(
        &self,
        solution: &[f64],
        parameter: Parameter,
        columns: &[usize],
    ) -> Result<Vec<f64>, SensError> {
        self.kkt(solution)
            .parameter_jacobian(parameter, columns)
            .map(Mat::into_columns)
    }

    pub fn parameter_jacobian_demand(&self, solution: &[f64], bus: usize) -> Vec<f64> {
        self.parameter_jacobian(solution, Parameter::Demand(Power::Active), &[bus])
            .unwrap()
    }

    pub fn parameter_len(&self, parameter: Parameter) -> Option<usize> {
        self.kkt(&self.blank_solution()).parameter_len(parameter)
    }

    pub fn operand_len(&self, operand: Operand) -> Option<usize> {
        self.kkt(&self.blank_solution()).operand_len(operand)
    }

    pub fn operand_selector(&self, operand: Operand) -> Result<Selector, SensError> {
        self.kkt(&self.blank_solution()).operand_selector(operand)
    }

    // Solutions as sheets.

    /// The number of words in a solution sheet.
    pub fn solution_len(&self) -> usize {
        let (n, m, k) = (self.dc.n, self.dc.m, self.dc.k);
        let costs = self.dc.piecewise_costs.iter().flatten();
        let piecewise: usize = costs.map(|cost| 1 + cost.segment_count()).sum();
        5 * n + 3 * k + 5 * m + piecewise + 2 * self.dc.linear_rows.len() + 1
    }

    fn blank_solution(&self) -> Vec<f64> {
        vec![0.0; self.solution_len()]
    }

    fn solution(&self, sheet: &[f64]) -> DcOpfSolution {
        let dc = &self.dc;
        let (n, m, k, q) = (dc.n, dc.m, dc.k, dc.linear_rows.len());
        let mut sheet = sheet;
        let mut doubles = |count: usize| take(&mut sheet, count).to_vec();
        let (va, pg, f, psh, nu_bal) = (doubles(n), doubles(k), doubles(m), doubles(n), doubles(n));
        let (lam_ub, lam_lb, rho_ub, rho_lb) = (doubles(m), doubles(m), doubles(k), doubles(k));
        let (mu_ub, mu_lb, gamma_ub, gamma_lb) = (doubles(n), doubles(n), doubles(m), doubles(m));
        let costs = || dc.piecewise_costs.iter().map(Option::as_ref);
        let cost_epigraph = costs().map(|cost| cost.map(|_| doubles(1)[0])).collect();
        let cost_segment_duals = costs()
            .map(|cost| cost.map(|cost| doubles(cost.segment_count())))
            .collect();
        let (linear_duals, linear_values) = (doubles(q), doubles(q));
        let objective = doubles(1)[0];
        assert!(sheet.is_empty());
        DcOpfSolution {
            va,
            pg,
            f,
            psh,
            nu_bal,
            lam_ub,
            lam_lb,
            rho_ub,
            rho_lb,
            mu_ub,
            mu_lb,
            gamma_ub,
            gamma_lb,
            objective,
            iterations: Vec::new(),
            cost_epigraph,
            cost_segment_duals,
            limit_rounds: None,
            linear_values,
            linear_duals,
        }
    }

    fn sheet(&self, s: &DcOpfSolution) -> Vec<f64> {
        let epigraphs: Vec<f64> = s.cost_epigraph.iter().flatten().copied().collect();
        let segments = s.cost_segment_duals.iter().flatten().flatten();
        let segments: Vec<f64> = segments.copied().collect();
        let parts = [
            &s.va,
            &s.pg,
            &s.f,
            &s.psh,
            &s.nu_bal,
            &s.lam_ub,
            &s.lam_lb,
            &s.rho_ub,
            &s.rho_lb,
            &s.mu_ub,
            &s.mu_lb,
            &s.gamma_ub,
            &s.gamma_lb,
            &epigraphs,
            &segments,
            &s.linear_duals,
            &s.linear_values,
        ];
        let mut sheet: Vec<f64> = parts.into_iter().flatten().copied().collect();
        sheet.push(s.objective);
        assert_eq!(sheet.len(), self.solution_len());
        sheet
    }
}

pub fn served_unit_scale(operand: Operand, parameter: Parameter, base_mva: f64) -> f64 {
    sens::served_unit_scale(operand, parameter, base_mva)
}

/// The original's contraction, element by element, columns within. It takes the
/// parameter sheet by value. `solve` is given the list (rows and columns exchanged
/// when adjoint), the right side and its number of columns, and answers the solved
/// columns. Mode `Auto` panics.
pub fn forward_adjoint(
    dim: usize,
    list: &[(usize, usize, f64)],
    parameter_sheet: Vec<f64>,
    map: &[Vec<(usize, f64)>],
    sign: f64,
    mode: Mode,
    columns: usize,
    solve: impl Fn(&[(usize, usize, f64)], &[f64], usize) -> Vec<f64>,
) -> Vec<Vec<f64>> {
    let sheet = Mat::from_columns(dim, columns, parameter_sheet);
    sens::forward_adjoint(dim, list, sheet, map, sign, mode, |list, right| {
        let count = right.ncols();
        Ok(Mat::from_columns(
            dim,
            count,
            solve(list, &right.into_columns(), count),
        ))
    })
    .unwrap()
}

/// The original's refinement around this crate's dense elimination: its digits
/// aren't those of the original's sparse factors.
pub fn solve_refined(
    dim: usize,
    list: &[(usize, usize, f64)],
    right: &[f64],
    columns: usize,
    spec: SolveSpec,
) -> Result<Vec<f64>, String> {
    let right = Mat::from_columns(dim, columns, right.to_vec());
    sens::solve_refined(
        dim,
        list,
        right,
        spec.eps,
        spec.refine_iters,
        spec.tol_factor,
    )
    .map(Mat::into_columns)
}
