//! Clarabel's names for a program. A matrix keeps its triplets as given; there is
//! no solver.

pub mod algebra {
    #[derive(Clone, Debug, PartialEq)]
    pub struct CscMatrix<T> {
        pub m: usize,
        pub n: usize,
        pub rows: Vec<usize>,
        pub cols: Vec<usize>,
        pub values: Vec<T>,
    }

    impl<T> CscMatrix<T> {
        pub fn new_from_triplets(
            m: usize,
            n: usize,
            rows: Vec<usize>,
            cols: Vec<usize>,
            values: Vec<T>,
        ) -> Self {
            CscMatrix {
                m,
                n,
                rows,
                cols,
                values,
            }
        }
    }
}

pub mod solver {
    use crate::algebra::CscMatrix;

    #[derive(Clone, Debug, PartialEq)]
    pub enum SupportedConeT<T> {
        ZeroConeT(usize),
        NonnegativeConeT(usize),
        PowerConeT(T),
    }

    #[derive(Clone, Copy, Debug, PartialEq)]
    pub enum SolverStatus {
        Unsolved,
        Solved,
        AlmostSolved,
        PrimalInfeasible,
        DualInfeasible,
        NumericalError,
        CallbackTerminated,
    }

    #[derive(Default)]
    pub struct DefaultSettings<T> {
        pub verbose: bool,
        pub tol_gap_abs: T,
        pub tol_gap_rel: T,
        pub tol_feas: T,
        pub static_regularization_constant: T,
        pub max_iter: u32,
    }

    pub struct DefaultInfo<T> {
        pub iterations: u32,
        pub cost_primal: T,
        pub res_primal: T,
        pub res_dual: T,
    }

    pub struct DefaultSolution<T> {
        pub status: SolverStatus,
        pub x: Vec<T>,
        pub z: Vec<T>,
        pub obj_val: T,
    }

    pub struct DefaultSolver<T> {
        pub solution: DefaultSolution<T>,
    }

    impl DefaultSolver<f64> {
        pub fn new(
            _p: &CscMatrix<f64>,
            _q: &[f64],
            _a: &CscMatrix<f64>,
            _b: &[f64],
            _cones: &[SupportedConeT<f64>],
            _settings: DefaultSettings<f64>,
        ) -> Result<Self, String> {
            Err("no solver here".into())
        }

        pub fn set_termination_callback(
            &mut self,
            _callback: impl FnMut(&DefaultInfo<f64>) -> bool + 'static,
        ) {
        }
    }

    pub trait IPSolver {
        fn solve(&mut self) {}
    }

    impl IPSolver for DefaultSolver<f64> {}
}
