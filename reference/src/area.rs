//! The work area as a grid: 16 rows of 32 columns.

use crate::matrix::{RealMatrix, REAL_SIZE};

/// Rows of the work area.
pub const ROWS: usize = REAL_SIZE;

/// Columns of the work area: R in the making, then Q transposed.
pub const COLUMNS: usize = 2 * REAL_SIZE;

/// Words a call needs of a lent area.
pub const AREA_WORDS: usize = ROWS * COLUMNS;

/// What stands for one in Q.
pub const ONE: i32 = 1 << 30;

/// Loading multiplies each entry of the input by this.
pub const INPUT_SCALE: i32 = 1 << 13;

/// A copy of the 512 words of a lent area.
#[derive(Debug, Clone, PartialEq, Eq)]
pub struct WorkArea {
    rows: [[i32; COLUMNS]; ROWS],
}

impl WorkArea {
    /// The area as Load fills it: the scaled input, and the identity beside it.
    pub fn loaded(input: &RealMatrix) -> Self {
        let mut rows = [[0; COLUMNS]; ROWS];
        for (i, row) in rows.iter_mut().enumerate() {
            for (word, entry) in row.iter_mut().zip(&input[i]) {
                *word = entry * INPUT_SCALE;
            }
            row[REAL_SIZE + i] = ONE;
        }
        WorkArea { rows }
    }

    /// The area of 512 words that stand row by row.
    pub fn from_words(words: &[i32; AREA_WORDS]) -> Self {
        let mut rows = [[0; COLUMNS]; ROWS];
        for (row, words) in rows.iter_mut().zip(words.chunks_exact(COLUMNS)) {
            row.copy_from_slice(words);
        }
        WorkArea { rows }
    }

    /// The 512 words, row by row.
    pub fn to_words(&self) -> [i32; AREA_WORDS] {
        let mut words = [0; AREA_WORDS];
        for (words, row) in words.chunks_exact_mut(COLUMNS).zip(&self.rows) {
            words.copy_from_slice(row);
        }
        words
    }

    /// The word in a row and column of the area.
    pub fn word(&self, row: usize, column: usize) -> i32 {
        self.rows[row][column]
    }

    /// Stores a word in a row and column of the area.
    pub fn set_word(&mut self, row: usize, column: usize, word: i32) {
        self.rows[row][column] = word;
    }

    /// R's word (i, j).
    pub fn r(&self, i: usize, j: usize) -> i32 {
        self.rows[i][j]
    }

    /// Q's word (i, j). The area holds Q transposed.
    pub fn q(&self, i: usize, j: usize) -> i32 {
        self.rows[j][REAL_SIZE + i]
    }

    /// Whether every word of R under the diagonal is 0.
    pub fn is_upper_triangular(&self) -> bool {
        (0..REAL_SIZE).all(|i| (0..i).all(|j| self.r(i, j) == 0))
    }

    /// Whether none of R's first fifteen diagonal words is negative. The last one may be: no turn
    /// leads with column 15.
    pub fn has_nonnegative_diagonal(&self) -> bool {
        (0..REAL_SIZE - 1).all(|i| self.r(i, i) >= 0)
    }
}

#[cfg(test)]
mod tests {
    use super::*;
    use crate::matrix::{Complex, Matrix};

    fn filled_with(element: Complex) -> WorkArea {
        WorkArea::loaded(&Matrix::from_fn(|_, _| element).to_real())
    }

    #[test]
    fn marked_cases_m1_to_m3() {
        assert_eq!(filled_with(Complex::new(1, 0)).r(0, 0), 8192);
        assert_eq!(filled_with(Complex::new(-32768, 0)).r(0, 0), -268435456);
        assert_eq!(filled_with(Complex::new(0, -32768)).r(0, 8), 268435456);
    }

    #[test]
    fn loading_puts_the_identity_beside_the_input() {
        let area = filled_with(Complex::new(7, -9));
        for i in 0..REAL_SIZE {
            for j in 0..REAL_SIZE {
                assert_eq!(area.q(i, j), if i == j { 1073741824 } else { 0 });
            }
        }
    }

    #[test]
    fn words_stand_row_by_row() {
        let words: [i32; AREA_WORDS] = std::array::from_fn(|k| k as i32);
        let area = WorkArea::from_words(&words);
        assert_eq!(area.word(0, 31), 31);
        assert_eq!(area.word(1, 0), 32);
        assert_eq!(area.r(15, 15), 15 * 32 + 15);
        assert_eq!(area.q(2, 5), 5 * 32 + 16 + 2);
        assert_eq!(area.to_words(), words);
    }

    #[test]
    fn triangularity_and_signs_look_at_the_right_words() {
        let mut area = WorkArea::from_words(&[0; AREA_WORDS]);
        area.set_word(15, 15, -1);
        area.set_word(0, 15, -1);
        assert!(area.is_upper_triangular() && area.has_nonnegative_diagonal());
        area.set_word(14, 14, -1);
        assert!(area.is_upper_triangular() && !area.has_nonnegative_diagonal());
        area.set_word(15, 14, 1);
        assert!(!area.is_upper_triangular());
    }
}
