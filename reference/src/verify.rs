//! Whether a result record is a factorization of a matrix record, whoever wrote it.
//!
//! Q times R and Q times Q transposed are worked out as whole matrices of 128-bit numbers, and of each
//! the entry that is furthest from where it should be decides. The largest sums are 16 products of two
//! lowest words, 2^66, so that none of them is cut.

use crate::accuracy::{largest, product_differences, rows_differences, BOUND};
use crate::calls::{test_heard, test_triangle};
use crate::records::{parse_matrix, parse_result};
use crate::replies::Refusal;

/// The reply to a request to verify. A refused one has said neither yes nor no.
#[derive(Debug, Clone, Copy, Default, PartialEq, Eq)]
pub struct VerifyReply {
    pub number: u8,
    pub yes: bool,
}

impl From<Refusal> for VerifyReply {
    fn from(refusal: Refusal) -> Self {
        VerifyReply {
            number: refusal.number(),
            ..VerifyReply::default()
        }
    }
}

/// Verify: yes when every entry of Q times R and every sum of products of two rows of Q is within its
/// bound. How the columns of R are is not asked.
pub fn verify(matrix: &[u8], result: &[u8]) -> VerifyReply {
    accept_verify(matrix, result).unwrap_or_else(VerifyReply::from)
}

fn accept_verify(matrix: &[u8], result: &[u8]) -> Result<VerifyReply, Refusal> {
    let matrix = parse_matrix(matrix)?;
    test_heard(&matrix)?;
    let area = parse_result(result)?;
    test_triangle(&area)?;
    let product = product_differences(&matrix.to_real(), &area);
    let rows = rows_differences(&area);
    Ok(VerifyReply {
        number: 0,
        yes: largest(&product) <= BOUND && largest(&rows) <= BOUND,
    })
}

#[cfg(test)]
mod tests {
    use super::*;
    use crate::area::{WorkArea, AREA_WORDS, ONE};
    use crate::calls::whole;
    use crate::matrix::{Complex, Matrix, ANTENNAS, REAL_SIZE};
    use crate::records::{write_matrix, write_result, RESULT_RECORD};

    const YES: VerifyReply = VerifyReply {
        number: 0,
        yes: true,
    };
    const NO: VerifyReply = VerifyReply {
        number: 0,
        yes: false,
    };

    /// A matrix that is zero off its diagonal, and its exact factors, with Q one.
    fn diagonal(re: i16) -> (Matrix, WorkArea) {
        let matrix = Matrix::from_fn(|_, _| Complex::ZERO).with_diagonal(|_| re);
        let area = WorkArea::loaded(&matrix.to_real());
        (matrix, area)
    }

    fn answer((matrix, area): &(Matrix, WorkArea)) -> VerifyReply {
        verify(&write_matrix(matrix), &write_result(area))
    }

    /// The answer for exact factors of which one word is off.
    fn with_word(row: usize, column: usize, word: i32) -> VerifyReply {
        let (matrix, mut area) = diagonal(100);
        area.set_word(row, column, word);
        answer(&(matrix, area))
    }

    #[test]
    fn the_result_of_whole_gets_yes_with_its_matrix_alone() {
        let matrix = Matrix::from_fn(|i, j| Complex::new(900 * i as i16 + 50, -700 * j as i16));
        let record = write_matrix(&matrix);
        let (mut area, mut result) = ([0; AREA_WORDS], [0; RESULT_RECORD]);
        assert_eq!(whole(&record, &mut area, &mut result).number, 0);
        assert_eq!(verify(&record, &result), YES);
        let other = write_matrix(&matrix.with_diagonal_at(5, 9));
        assert_eq!(verify(&other, &result), NO);
    }

    /// A word of R counts 2^30 in the product, a word of Q off the diagonal as much in its rows.
    #[test]
    fn a_difference_of_two_to_the_44_is_within() {
        for word in [1 << 14, -(1 << 14)] {
            assert_eq!(with_word(0, 15, word), YES);
            assert_eq!(with_word(0, 15, word + word.signum()), NO);
            assert_eq!(with_word(3, 16 + 12, word), YES);
            assert_eq!(with_word(3, 16 + 12, word + word.signum()), NO);
        }
    }

    /// 2^30 + 8191 squared is 2^60 + 2^44 less some 2^31, and 2^30 - 8192 squared is 2^60 - 2^44 and
    /// some 2^26 more.
    #[test]
    fn a_row_has_the_length_of_one() {
        assert_eq!(with_word(15, 16 + 15, ONE + 8191), YES);
        assert_eq!(with_word(15, 16 + 15, ONE + 8192), NO);
        assert_eq!(with_word(15, 16 + 15, ONE - 8192), YES);
        assert_eq!(with_word(15, 16 + 15, ONE - 8193), NO);
    }

    /// Each row of Q has the squares of 3 and of 5, eight times each, in steps of 2^28: 2^60 and 2^64,
    /// of which 64 bits keep 2^60. Any two rows are orthogonal, and Q times R is exact.
    #[test]
    fn sums_beyond_64_bits_are_not_cut() {
        let sign = |i: usize, j: usize| if (i & j).count_ones() % 2 == 0 { 1 } else { -1 };
        let matrix = Matrix::from_fn(|i, j| Complex::new(300 * sign(i, j), 500 * sign(i, j)));
        let input = matrix.to_real();
        let mut area = WorkArea::from_words(&[0; AREA_WORDS]);
        for (i, row) in input.iter().enumerate() {
            area.set_word(i, i, 100 << 15);
            let words = row.map(|part| (part / 100) << 28);
            (0..REAL_SIZE).for_each(|k| area.set_word(k, 16 + i, words[k]));
        }
        assert_eq!(largest(&product_differences(&input, &area)), 0);
        assert_eq!(largest(&rows_differences(&area)), 1 << 64);
        assert_eq!(answer(&(matrix, area)), NO);
    }

    #[test]
    fn words_at_the_ends_of_the_range_are_answered_no() {
        for word in [i32::MIN, i32::MAX] {
            let (matrix, mut area) = diagonal(17);
            for row in 0..REAL_SIZE {
                (row + 1..2 * REAL_SIZE).for_each(|column| area.set_word(row, column, word));
            }
            assert_eq!(answer(&(matrix, area)), NO);
        }
    }

    /// Eight words of one column, each off by as much as the product may be.
    #[test]
    fn the_columns_of_r_are_not_asked() {
        let last = ANTENNAS - 1;
        let element = |j| if j == last { 32_767 } else { 0 };
        let matrix = Matrix::from_fn(|_, j| Complex::new(element(j), 0));
        let mut area = WorkArea::loaded(&matrix.to_real());
        for k in 0..ANTENNAS {
            for (row, column) in [(k, last), (ANTENNAS + k, ANTENNAS + last)] {
                area.set_word(row, column, area.word(row, column) + (1 << 14));
            }
        }
        assert_eq!(answer(&(matrix, area)), YES);
    }

    #[test]
    fn the_last_diagonal_word_may_be_negative() {
        let (matrix, mut area) = diagonal(32_767);
        area.set_word(15, 15, -area.word(15, 15));
        assert_eq!(answer(&(matrix.clone(), area.clone())), NO);
        area.set_word(15, 16 + 15, -ONE);
        assert_eq!(answer(&(matrix, area)), YES);
    }

    #[test]
    fn the_tests_are_made_in_order() {
        let (matrix, mut area) = diagonal(17);
        let (heard, hum) = (write_matrix(&matrix), write_matrix(&diagonal(16).0));
        area.set_word(14, 14, -1);
        let negative = write_result(&area);
        let refused = |matrix: &[u8], result: &[u8], refusal| {
            assert_eq!(verify(matrix, result), VerifyReply::from(refusal));
        };
        refused(&[], &[], Refusal::Kind);
        refused(&negative, &heard, Refusal::Kind);
        refused(&heard[..256], &[], Refusal::Length);
        refused(&hum, &[], Refusal::NoneHeard);
        refused(&hum, &negative, Refusal::NoneHeard);
        refused(&heard, &[], Refusal::Kind);
        refused(&heard, &heard, Refusal::Kind);
        refused(&heard, &negative[..2048], Refusal::Length);
        refused(&heard, &negative, Refusal::Triangle);
        area.set_word(14, 14, 0);
        area.set_word(14, 13, 1);
        refused(&heard, &write_result(&area), Refusal::Triangle);
    }
}
