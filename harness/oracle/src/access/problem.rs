// A child of the original's problem/dc.rs: it sees that file's private items.

use super::{read_dc_solution, LinearRowIndex, OpfLayout};
use crate::{Layout, Oracle, Raw, Solved};

impl Oracle {
    pub fn layout(&self) -> Layout {
        let (dc, lay) = (&self.dc, OpfLayout::dc(&self.dc));
        let linear = |index: &LinearRowIndex| [index.upper, index.lower, index.equality];
        Layout {
            columns: lay.nvar(),
            rows: lay.ncon(),
            thermal: (0..dc.m)
                .map(|e| lay.r_lineub(e).zip(lay.r_linelb(e)))
                .collect(),
            generator: (0..dc.k)
                .map(|j| lay.r_genub(j).zip(lay.r_genlb(j)))
                .collect(),
            shed: (0..dc.n)
                .map(|i| lay.r_shedub(i).zip(lay.r_shedlb(i)))
                .collect(),
            angle: (0..dc.m)
                .map(|e| lay.r_phaseub(e).zip(lay.r_phaselb(e)))
                .collect(),
            shed_column: (0..dc.n).map(|i| lay.col_psh(i)).collect(),
            cost_column: (0..dc.k).map(|j| lay.col_cost(j)).collect(),
            segment_start: (0..dc.k).map(|j| lay.r_cost_segment(j, 0)).collect(),
            linear: lay.linear_rows.iter().map(linear).collect(),
        }
    }

    /// A solution sheet from a solver's primal and dual columns and its objective.
    pub fn read_dc_solution(&self, x: &[f64], z: &[f64], objective: f64) -> Vec<f64> {
        let Solved(solution) = self.read_raw(&self.raw(x, z, objective));
        self.sheet(&solution)
    }

    /// The same between the original's own structures.
    pub fn read_raw(&self, raw: &Raw) -> Solved {
        Solved(read_dc_solution(&self.dc, &raw.0))
    }
}
