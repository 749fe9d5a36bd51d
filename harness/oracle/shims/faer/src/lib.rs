//! A dense column-major `Mat`, and a triplet matrix solved by dense elimination
//! with row exchanges. The names are faer's, the digits of a solve are not.

use std::ops::{Index, IndexMut};

#[derive(Clone, Debug, PartialEq)]
pub struct Mat<T> {
    rows: usize,
    cols: usize,
    cells: Vec<T>,
}

impl Mat<f64> {
    pub fn zeros(rows: usize, cols: usize) -> Self {
        Self::from_columns(rows, cols, vec![0.0; rows * cols])
    }

    /// From column after column; `into_columns` gives the same back.
    pub fn from_columns(rows: usize, cols: usize, cells: Vec<f64>) -> Self {
        assert_eq!(cells.len(), rows * cols);
        Mat { rows, cols, cells }
    }
}

impl<T> Mat<T> {
    pub fn nrows(&self) -> usize {
        self.rows
    }
    pub fn ncols(&self) -> usize {
        self.cols
    }
    pub fn as_mut(&mut self) -> &mut Self {
        self
    }
    pub fn into_columns(self) -> Vec<T> {
        self.cells
    }
}

impl<T> Index<(usize, usize)> for Mat<T> {
    type Output = T;
    fn index(&self, (r, c): (usize, usize)) -> &T {
        assert!(r < self.rows && c < self.cols);
        &self.cells[c * self.rows + r]
    }
}

impl<T> IndexMut<(usize, usize)> for Mat<T> {
    fn index_mut(&mut self, (r, c): (usize, usize)) -> &mut T {
        assert!(r < self.rows && c < self.cols);
        &mut self.cells[c * self.rows + r]
    }
}

pub mod linalg {
    pub mod solvers {
        pub trait Solve {
            fn solve_in_place(&self, rhs: &mut crate::Mat<f64>);
        }
    }
}

pub mod sparse {
    use crate::{linalg::solvers::Solve, Mat};
    use std::marker::PhantomData;

    #[derive(Clone, Copy, Debug)]
    pub struct Triplet<R, C, T> {
        pub row: R,
        pub col: C,
        pub val: T,
    }

    impl<R, C, T> Triplet<R, C, T> {
        pub fn new(row: R, col: C, val: T) -> Self {
            Triplet { row, col, val }
        }
    }

    pub struct SparseColMat<I, T> {
        dense: Mat<T>,
        index: PhantomData<I>,
    }

    impl SparseColMat<usize, f64> {
        pub fn try_new_from_triplets(
            rows: usize,
            cols: usize,
            entries: &[Triplet<usize, usize, f64>],
        ) -> Result<Self, String> {
            let mut dense = Mat::zeros(rows, cols);
            for entry in entries {
                dense[(entry.row, entry.col)] += entry.val;
            }
            Ok(SparseColMat {
                dense,
                index: PhantomData,
            })
        }

        pub fn sp_lu(&self) -> Result<Lu, String> {
            let (mut a, n) = (self.dense.clone(), self.dense.nrows());
            let mut exchanges = Vec::with_capacity(n);
            for c in 0..n {
                let pivot = (c..n).fold(c, |best, r| {
                    if a[(r, c)].abs() > a[(best, c)].abs() {
                        r
                    } else {
                        best
                    }
                });
                if a[(pivot, c)] == 0.0 {
                    return Err(format!("no pivot in column {c}"));
                }
                exchanges.push(pivot);
                for j in 0..n {
                    let (upper, lower) = (a[(c, j)], a[(pivot, j)]);
                    a[(c, j)] = lower;
                    a[(pivot, j)] = upper;
                }
                for r in c + 1..n {
                    a[(r, c)] /= a[(c, c)];
                }
                for j in c + 1..n {
                    let top = a[(c, j)];
                    for r in c + 1..n {
                        a[(r, j)] -= a[(r, c)] * top;
                    }
                }
            }
            Ok(Lu {
                factors: a,
                exchanges,
            })
        }
    }

    pub struct Lu {
        factors: Mat<f64>,
        exchanges: Vec<usize>,
    }

    impl Solve for Lu {
        fn solve_in_place(&self, rhs: &mut Mat<f64>) {
            let (a, n) = (&self.factors, self.factors.nrows());
            for c in 0..rhs.ncols() {
                for (r, &pivot) in self.exchanges.iter().enumerate() {
                    let (upper, lower) = (rhs[(r, c)], rhs[(pivot, c)]);
                    rhs[(r, c)] = lower;
                    rhs[(pivot, c)] = upper;
                }
                for r in 0..n {
                    for j in 0..r {
                        rhs[(r, c)] -= a[(r, j)] * rhs[(j, c)];
                    }
                }
                for r in (0..n).rev() {
                    for j in r + 1..n {
                        rhs[(r, c)] -= a[(r, j)] * rhs[(j, c)];
                    }
                    rhs[(r, c)] /= a[(r, r)];
                }
            }
        }
    }
}
