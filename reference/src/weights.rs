//! The weights for the modem: from a result record and eight targets, what solves R times w = Q
//! transposed times the target.
//!
//! Each row of the equations is a value of its own, with its right-hand sum in 128 bits. The rows
//! are solved from the last one up, and each solution is put in front of those behind it, so that
//! the words of a row stand in rising column order beside the components they are multiplied by.
//!
//! Every operation on floats rounds once. Rust never fuses `a - b * c`: the product is rounded, and
//! then the difference. Only `mul_add`, which is not used here, would make one rounding of the two.

use std::collections::VecDeque;

use crate::area::WorkArea;
use crate::calls::test_triangle;
use crate::matrix::{ANTENNAS, REAL_SIZE};
use crate::records::parse_result;
use crate::replies::Refusal;

/// Right-hand sums are divided by this.
const DIVISOR: f64 = 131_072.0;

/// The reply to a request for weights: each is a real and an imaginary part. A refused one has
/// nothing but zeros.
#[derive(Debug, Clone, Copy, Default, PartialEq)]
pub struct WeightsReply {
    pub number: u8,
    pub weights: [(f64, f64); ANTENNAS],
}

impl From<Refusal> for WeightsReply {
    fn from(refusal: Refusal) -> Self {
        WeightsReply {
            number: refusal.number(),
            ..WeightsReply::default()
        }
    }
}

/// The weights that a result record gives for targets, each a real and an imaginary part.
pub fn weights(record: &[u8], targets: &[(i16, i16); ANTENNAS]) -> WeightsReply {
    accept_weights(record, targets).unwrap_or_else(WeightsReply::from)
}

fn accept_weights(
    record: &[u8],
    targets: &[(i16, i16); ANTENNAS],
) -> Result<WeightsReply, Refusal> {
    let area = parse_result(record)?;
    test_triangle(&area)?;
    test_diagonal(&area)?;
    let (real, imaginary): (Vec<i16>, Vec<i16>) = targets.iter().copied().unzip();
    let target = [real, imaginary].concat();
    let rows = (0..REAL_SIZE).map(|i| Row::new(&area, i, &target));
    let solved = solve(rows);
    Ok(WeightsReply {
        number: 0,
        weights: std::array::from_fn(|k| (solved[k], solved[ANTENNAS + k])),
    })
}

/// Test 11.
fn test_diagonal(area: &WorkArea) -> Result<(), Refusal> {
    if (0..REAL_SIZE).any(|i| area.r(i, i) == 0) {
        Err(Refusal::ZeroDiagonal)
    } else {
        Ok(())
    }
}

/// One row of the equations.
struct Row {
    /// The right-hand sum.
    sum: i128,
    diagonal: i32,
    /// The words behind the diagonal, in rising column order.
    behind: Vec<i32>,
}

impl Row {
    fn new(area: &WorkArea, i: usize, target: &[i16]) -> Self {
        // Word (i, j) of Q transposed is word (j, i) of Q.
        let products = target.iter().zip(0..);
        let products = products.map(|(&t, j)| i128::from(area.q(j, i)) * i128::from(t));
        Row {
            sum: products.sum(),
            diagonal: area.r(i, i),
            behind: (i + 1..REAL_SIZE).map(|j| area.r(i, j)).collect(),
        }
    }

    /// The component of this row, after those behind it are solved.
    fn component(&self, solved: &VecDeque<f64>) -> f64 {
        // The sum is at most 2^50 either way, so the float is the same number.
        let right = self.sum as f64 / DIVISOR;
        let products = self.behind.iter().zip(solved);
        let products = products.map(|(&word, component)| f64::from(word) * component);
        let rest = products.fold(right, |rest, product| rest - product);
        rest / f64::from(self.diagonal)
    }
}

/// The components of all rows, solved from the last one up.
fn solve(rows: impl DoubleEndedIterator<Item = Row>) -> VecDeque<f64> {
    rows.rev().fold(VecDeque::new(), |mut solved, row| {
        solved.push_front(row.component(&solved));
        solved
    })
}

#[cfg(test)]
mod tests {
    use super::*;
    use crate::area::{AREA_WORDS, ONE};
    use crate::records::write_result;

    const NO_TARGET: [(i16, i16); ANTENNAS] = [(0, 0); ANTENNAS];

    /// R with the same word all along its diagonal, and Q the identity.
    fn diagonal(word: i32) -> WorkArea {
        let mut area = WorkArea::from_words(&[0; AREA_WORDS]);
        for i in 0..REAL_SIZE {
            area.set_word(i, i, word);
            area.set_word(i, REAL_SIZE + i, ONE);
        }
        area
    }

    fn accepted(area: &WorkArea, targets: &[(i16, i16); ANTENNAS]) -> [(f64, f64); ANTENNAS] {
        let reply = weights(&write_result(area), targets);
        assert_eq!(reply.number, 0);
        reply.weights
    }

    /// 2^28 stands for one in R and 32768 in a target.
    #[test]
    fn the_weights_of_one_are_the_targets() {
        let targets = std::array::from_fn(|k| (1000 * k as i16, -32768 + k as i16));
        let expected = targets.map(|(re, im)| (f64::from(re) / 32768.0, f64::from(im) / 32768.0));
        assert_eq!(accepted(&diagonal(1 << 28), &targets), expected);
    }

    #[test]
    fn q_is_transposed_and_real_parts_come_first() {
        let mut area = diagonal(1);
        area.set_word(2, REAL_SIZE + 11, 1 << 17);
        let mut targets = NO_TARGET;
        targets[3] = (0, 5);
        let mut expected = [(0.0, 0.0); ANTENNAS];
        (expected[2].0, expected[3].1) = (5.0, 5.0 * 8192.0);
        assert_eq!(accepted(&area, &targets), expected);
    }

    /// (3 - 2 x 4 - 7 x 5) / 8, where the imaginary parts of weights 6 and 7 are 4 and 5.
    #[test]
    fn a_row_takes_off_its_products_and_divides() {
        let mut area = WorkArea::from_words(&[0; AREA_WORDS]);
        (0..REAL_SIZE).for_each(|i| area.set_word(i, i, 1));
        for (row, right) in [(0, 3), (14, 4), (15, 5)] {
            area.set_word(row, REAL_SIZE, right << 17);
        }
        for (column, word) in [(0, 8), (14, 2), (15, 7)] {
            area.set_word(0, column, word);
        }
        let mut targets = NO_TARGET;
        targets[0] = (1, 0);
        let weights = accepted(&area, &targets);
        assert_eq!([weights[6], weights[7]], [(0.0, 4.0), (0.0, 5.0)]);
        assert_eq!(weights[0], (-5.0, 0.0));
    }

    #[test]
    fn products_are_rounded_before_they_are_taken_off() {
        let row = Row {
            sum: 0,
            diagonal: 1,
            behind: vec![-(1 << 27), (1 << 27) - 1],
        };
        let solved = VecDeque::from([134_217_728.0, 134_217_729.0]);
        assert_eq!(row.component(&solved), 0.0);
    }

    #[test]
    fn the_tests_are_made_in_order() {
        let refused = |record: &[u8], refusal| {
            assert_eq!(weights(record, &NO_TARGET), WeightsReply::from(refusal));
        };
        refused(&[], Refusal::Kind);
        refused(&[1; 2049], Refusal::Kind);
        refused(&[2; 2048], Refusal::Length);
        let mut area = diagonal(9);
        area.set_word(15, 15, 0);
        refused(&write_result(&area), Refusal::ZeroDiagonal);
        area.set_word(14, 14, -1);
        refused(&write_result(&area), Refusal::Triangle);
    }

    #[test]
    fn the_last_diagonal_word_may_be_negative() {
        let mut area = diagonal(1 << 28);
        area.set_word(15, 15, -(1 << 28));
        let weights = accepted(&area, &[(0, 16384); ANTENNAS]);
        assert_eq!([weights[6], weights[7]], [(0.0, 0.5), (0.0, -0.5)]);
        let zero = accepted(&area, &NO_TARGET)[7].1;
        assert!(zero == 0.0 && zero.is_sign_negative());
    }
}
