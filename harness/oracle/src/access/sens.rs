// A child of the original's sens/dc.rs: it sees that file's private items.

use super::{snap, snap_linear, DcKkt, KktIdx, LinearDuals, SNAP_TOL};
use crate::{BlockStarts, Oracle};

impl Oracle {
    pub fn snap_tolerance() -> f64 {
        SNAP_TOL
    }

    pub fn block_starts(&self) -> BlockStarts {
        let idx = KktIdx::new(&self.dc);
        BlockStarts {
            dim: idx.dim,
            va: idx.va,
            pg: idx.pg,
            f: idx.f,
            psh: idx.psh,
            cost: idx.cost,
            lam_lb: idx.lam_lb,
            lam_ub: idx.lam_ub,
            gamma_lb: idx.gamma_lb,
            gamma_ub: idx.gamma_ub,
            rho_lb: idx.rho_lb,
            rho_ub: idx.rho_ub,
            mu_lb: idx.mu_lb,
            mu_ub: idx.mu_ub,
            cost_segment_dual: idx.cost_segment_dual,
            linear: idx
                .linear
                .iter()
                .map(|row| [row.upper, row.lower, row.equality])
                .collect(),
            nu_bal: idx.nu_bal,
            nu_flow: idx.nu_flow,
            eta: idx.eta,
        }
    }

    /// The whole sheet, its angle, shed and segment words snapped.
    pub fn snap(&self, solution: &[f64]) -> Vec<f64> {
        self.sheet(&snap(&self.dc, &self.solution(solution)))
    }

    /// Upper, lower, equality of each linear row.
    pub fn snap_linear(&self, solution: &[f64]) -> Vec<[f64; 3]> {
        let duals = snap_linear(&self.dc, &self.solution(solution));
        duals
            .iter()
            .map(|row| [row.upper, row.lower, row.equality])
            .collect()
    }

    /// `LinearDuals::signed` of each linear row.
    pub fn linear_signed(&self, solution: &[f64]) -> Vec<f64> {
        let duals = snap_linear(&self.dc, &self.solution(solution));
        duals.iter().map(LinearDuals::signed).collect()
    }

    /// As the system holds them: on the snapped sheet.
    pub fn nu_flow_values(&self, solution: &[f64]) -> Vec<f64> {
        DcKkt::new(&self.dc, &self.solution(solution)).nu_flow
    }
}
