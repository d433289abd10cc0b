//! A matrix, and the R and Q that are handed over as its factors.

use reference::accuracy::{self, product_differences, rows_differences, Differences};
use reference::area::WorkArea;
use reference::matrix::{Complex, Matrix, REAL_SIZE};
use reference::records::{write_matrix, write_result, MATRIX_RECORD, RESULT_RECORD};

use crate::board;

/// The sums that decide, of 256 pairs each.
#[derive(Debug, Clone, Copy, PartialEq, Eq)]
pub enum Family {
    /// Row i of Q with column j of R: entry (i, j) of Q times R.
    Product,
    /// Row i of Q with row j of Q.
    Rows,
}

impl Family {
    pub const BOTH: [Family; 2] = [Family::Product, Family::Rows];
}

/// All 256 pairs.
pub fn places() -> impl Iterator<Item = (usize, usize)> {
    (0..REAL_SIZE).flat_map(|i| (0..REAL_SIZE).map(move |j| (i, j)))
}

#[derive(Debug, Clone)]
pub struct Pair {
    pub matrix: Matrix,
    pub area: WorkArea,
}

impl Pair {
    /// Q one and R the scaled input: exact factors of a matrix that is upper triangular when it is
    /// made real.
    pub fn exact(matrix: Matrix) -> Self {
        let area = WorkArea::loaded(&matrix.to_real());
        Pair { matrix, area }
    }

    /// The same for real parts on the diagonal, one for each antenna, and zeros elsewhere.
    pub fn diagonal(re: impl FnMut(usize) -> i16) -> Self {
        let nothing = Matrix::from_fn(|_, _| Complex::ZERO);
        Pair::exact(nothing.with_diagonal(re))
    }

    /// What a board writes for a matrix.
    pub fn of_board(matrix: Matrix) -> Self {
        let area = board::written(&matrix);
        Pair { matrix, area }
    }

    /// Stores Q's word (i, k). The area holds Q transposed.
    pub fn set_q(&mut self, i: usize, k: usize, word: i32) {
        self.area.set_word(k, REAL_SIZE + i, word);
    }

    /// Stores R's word (k, j).
    pub fn set_r(&mut self, k: usize, j: usize, word: i32) {
        self.area.set_word(k, j, word);
    }

    /// Adds to R's word (k, j).
    pub fn add_to_r(&mut self, k: usize, j: usize, word: i32) {
        self.set_r(k, j, self.area.r(k, j) + word);
    }

    pub fn records(&self) -> ([u8; MATRIX_RECORD], [u8; RESULT_RECORD]) {
        (write_matrix(&self.matrix), write_result(&self.area))
    }

    /// By how much the sums of a family are off.
    pub fn differences(&self, family: Family) -> Differences {
        match family {
            Family::Product => product_differences(&self.matrix.to_real(), &self.area),
            Family::Rows => rows_differences(&self.area),
        }
    }

    /// The most that a sum of a family is off by.
    pub fn largest(&self, family: Family) -> i128 {
        accuracy::largest(&self.differences(family))
    }
}
