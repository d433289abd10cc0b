//! How far a worked matrix is from the exact factorization, in exact whole numbers.

use crate::area::WorkArea;
use crate::matrix::{RealMatrix, REAL_SIZE};

/// The bound on every sum of products: 2^44.
pub const BOUND: i128 = 1 << 44;

/// The bound on R's diagonal word 0, whose square has the bound above: 2^22.
pub const WORD_BOUND: i128 = 1 << 22;

/// By how much sums differ from what they should be, over all pairs of rows, of columns, or of a row
/// and a column.
pub type Differences = [[i128; REAL_SIZE]; REAL_SIZE];

/// The largest errors over all places of a worked matrix.
#[derive(Debug, Clone, Copy, Default, PartialEq, Eq)]
pub struct Errors {
    /// Entries of Q times R against 2^43 times the input's.
    pub product: i128,
    /// Sums of products of two rows of Q against 2^60 for a row with itself and 0 otherwise.
    pub rows: i128,
    /// Sums of products of two columns of R against 2^26 times the input's.
    pub columns: i128,
    /// R's diagonal word 0 against 2^13 times the length of the input's first column: the smallest
    /// whole number that is not below the difference.
    pub first_word: i128,
}

impl Errors {
    /// The errors of the R and Q that an area holds for an input made real.
    pub fn of(input: &RealMatrix, area: &WorkArea) -> Self {
        Errors {
            product: largest(&product_differences(input, area)),
            rows: largest(&rows_differences(area)),
            columns: largest(&columns_differences(input, area)),
            first_word: first_word_error(input, area),
        }
    }

    /// The larger of each error.
    pub fn max(self, other: Errors) -> Self {
        Errors {
            product: self.product.max(other.product),
            rows: self.rows.max(other.rows),
            columns: self.columns.max(other.columns),
            first_word: self.first_word.max(other.first_word),
        }
    }

    /// Whether all of them are within their bounds.
    pub fn are_within(self) -> bool {
        let sums = [self.product, self.rows, self.columns];
        sums.iter().all(|&error| error <= BOUND) && self.first_word <= WORD_BOUND
    }

    /// The errors of the sums as shares of their bound: the product, the rows of Q, the columns of R.
    pub fn shares(self) -> [f64; 3] {
        [self.product, self.rows, self.columns].map(|error| error as f64 / BOUND as f64)
    }
}

/// Entries of Q times R, less 2^43 times the input's.
pub fn product_differences(input: &RealMatrix, area: &WorkArea) -> Differences {
    differences(|i, j| {
        let sum = sum_of_products(|k| (area.q(i, k), area.r(k, j)));
        sum - (i128::from(input[i][j]) << 43)
    })
}

/// Sums of products of two rows of Q, less 2^60 for a row with itself.
pub fn rows_differences(area: &WorkArea) -> Differences {
    differences(|i, j| {
        let sum = sum_of_products(|k| (area.q(i, k), area.q(j, k)));
        sum - if i == j { 1 << 60 } else { 0 }
    })
}

/// Sums of products of two columns of R, less 2^26 times the input's.
fn columns_differences(input: &RealMatrix, area: &WorkArea) -> Differences {
    differences(|i, j| {
        let sum = sum_of_products(|k| (area.r(k, i), area.r(k, j)));
        let exact = sum_of_products(|k| (input[k][i], input[k][j])) << 26;
        sum - exact
    })
}

fn differences(at: impl Fn(usize, usize) -> i128) -> Differences {
    std::array::from_fn(|i| std::array::from_fn(|j| at(i, j)))
}

/// The largest of all differences, whichever way they are.
pub fn largest(differences: &Differences) -> i128 {
    let sizes = differences
        .iter()
        .flatten()
        .map(|difference| difference.abs());
    sizes.max().expect("there are 256 of them")
}

/// A length is a square root, so the whole numbers on either side of it are compared.
fn first_word_error(input: &RealMatrix, area: &WorkArea) -> i128 {
    let square = sum_of_products(|k| (input[k][0], input[k][0])) << 26;
    let below = square.isqrt();
    let above = below + i128::from(below * below < square);
    let word = i128::from(area.r(0, 0));
    (word - below).max(above - word)
}

fn sum_of_products(factors: impl Fn(usize) -> (i32, i32)) -> i128 {
    (0..REAL_SIZE)
        .map(|k| {
            let (a, b) = factors(k);
            i128::from(a) * i128::from(b)
        })
        .sum()
}

#[cfg(test)]
mod tests {
    use super::*;
    use crate::area::ONE;
    use crate::matrix::{Complex, Matrix};

    #[test]
    fn the_sums_of_a_loaded_area_have_no_error() {
        let input = Matrix::from_fn(|i, j| Complex::new(-32768 + i as i16, j as i16)).to_real();
        let errors = Errors::of(&input, &WorkArea::loaded(&input));
        assert_eq!([errors.product, errors.rows, errors.columns], [0; 3]);
    }

    /// The parts 3 and 4 make a column of length 5; 1 and 1 make one of no whole length.
    #[test]
    fn the_first_word_is_compared_with_a_length() {
        let error = |re, im, word| {
            let element = |i, j| if i + j == 0 { (re, im) } else { (0, 0) };
            let input = Matrix::from_fn(|i, j| {
                let (re, im) = element(i, j);
                Complex::new(re, im)
            });
            let mut area = WorkArea::loaded(&input.to_real());
            area.set_word(0, 0, word);
            Errors::of(&input.to_real(), &area).first_word
        };
        assert_eq!(error(3, 4, 5 << 13), 0);
        assert_eq!(error(3, 4, (5 << 13) + 7), 7);
        assert_eq!(error(3, 4, (5 << 13) - 7), 7);
        // 2^13 times the root of 2 is 11,585.2
        assert_eq!([11_585, 11_586].map(|word| error(1, 1, word)), [1, 1]);
        assert_eq!([11_580, 11_590].map(|word| error(1, 1, word)), [6, 5]);
    }

    #[test]
    fn differences_have_a_sign_and_a_place() {
        let input = Matrix::from_fn(|_, _| Complex::ZERO).to_real();
        let mut area = WorkArea::loaded(&input);
        area.set_word(4, 9, -3);
        area.set_word(2, 16 + 7, -5);
        let mut due = [[0; REAL_SIZE]; REAL_SIZE];
        due[4][9] = -3 * i128::from(ONE);
        assert_eq!(product_differences(&input, &area), due);
        let mut due = [[0; REAL_SIZE]; REAL_SIZE];
        (due[2][7], due[7][2]) = (-5 * i128::from(ONE), -5 * i128::from(ONE));
        due[7][7] = 25;
        assert_eq!(rows_differences(&area), due);
        assert_eq!(largest(&due), 5 * i128::from(ONE));
    }

    #[test]
    fn each_error_has_its_bound() {
        let at = Errors {
            product: BOUND,
            rows: BOUND,
            columns: BOUND,
            first_word: WORD_BOUND,
        };
        assert!(at.are_within());
        let beyond = [
            Errors {
                product: BOUND + 1,
                ..at
            },
            Errors {
                rows: BOUND + 1,
                ..at
            },
            Errors {
                columns: BOUND + 1,
                ..at
            },
            Errors {
                first_word: WORD_BOUND + 1,
                ..at
            },
        ];
        assert!(beyond.iter().all(|errors| !errors.are_within()));
    }

    #[test]
    fn one_wrong_word_of_r_shows_in_the_product() {
        let input = Matrix::from_fn(|_, _| Complex::new(0, 1)).to_real();
        let mut area = WorkArea::loaded(&input);
        area.set_word(4, 9, area.word(4, 9) + 3);
        let errors = Errors::of(&input, &area);
        assert_eq!(errors.product, 3 * i128::from(ONE));
        assert_eq!(errors.rows, 0);
        assert_ne!(errors.columns, 0);
    }

    #[test]
    fn one_wrong_word_of_q_shows_in_its_rows() {
        let input = Matrix::from_fn(|_, _| Complex::new(0, 1)).to_real();
        let mut area = WorkArea::loaded(&input);
        area.set_word(4, 16 + 9, 5);
        let errors = Errors::of(&input, &area);
        assert_eq!(errors.rows, 5 * i128::from(ONE));
        assert_eq!(errors.columns, 0);
        assert_eq!(errors.product, 5 * 8192);
    }

    #[test]
    fn shares_are_of_two_to_the_44() {
        let errors = Errors {
            product: 1 << 44,
            rows: 1 << 43,
            ..Errors::default()
        };
        assert_eq!(errors.shares(), [1.0, 0.5, 0.0]);
    }
}
