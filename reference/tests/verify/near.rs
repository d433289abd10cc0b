//! Factors with all words other than zero, of which one sum is pushed next to its bound.

use reference::accuracy::BOUND;
use reference::cases::Kind;
use reference::matrix::Matrix;
use reference::random::Random;

use crate::board::{real, Factors};
use crate::pair::{places, Family, Pair};
use crate::rules::{Compared, Rule};

/// How far from the bound the sum is pushed to, inside or beyond. Rounding the words moves it by less.
const MARGIN: i128 = 1 << 34;

/// The words that a board writes for a matrix, of which one sum of a family is off.
fn pushed(matrix: Matrix, family: Family, (i, j): (usize, usize), off: i128) -> Pair {
    let mut steps = real(&matrix);
    let factors = match family {
        Family::Product => {
            steps[i][j] += off as f64 / 43_f64.exp2();
            Factors::of(&steps)
        }
        Family::Rows => {
            let mut factors = Factors::of(&steps);
            lean(&mut factors, i, j, off as f64 / 61_f64.exp2());
            factors
        }
    };
    let area = factors.rounded();
    Pair { matrix, area }
}

/// Adds to either row of Q a share of the other, or to a row a share of itself.
fn lean(factors: &mut Factors, i: usize, j: usize, share: f64) {
    let (a, b) = (factors.q[i], factors.q[j]);
    factors.q[i] = std::array::from_fn(|k| a[k] + share * b[k]);
    factors.q[j] = std::array::from_fn(|k| b[k] + share * a[k]);
}

#[test]
fn each_sum_of_full_matrices_next_to_its_bound() {
    let mut compared = Compared::new([
        Rule::Bound(Family::Product, 43),
        Rule::Bound(Family::Product, 45),
        Rule::Bound(Family::Rows, 43),
        Rule::Bound(Family::Rows, 45),
        Rule::Skips(Family::Product, 15, 15),
        Rule::Skips(Family::Rows, 15, 15),
        Rule::Without(Family::Product, 15),
        Rule::Without(Family::Rows, 15),
    ]);
    let mut number = 0;
    for family in Family::BOTH {
        for place in places() {
            for (sign, side) in [(1, -1), (-1, -1), (1, 1), (-1, 1)] {
                let matrix = Kind::FullRange.matrix(&mut Random::for_case(1301, number));
                let pair = pushed(matrix, family, place, sign * (BOUND + side * MARGIN));
                let reply = compared.verify("next to the bound", 1301, number, &pair);
                let due = (0, side < 0);
                assert_eq!((reply.number, reply.yes), due, "{family:?} {place:?}");
                number += 1;
            }
        }
    }
    compared.print_and_require_all_rules("Full matrices with a sum next to its bound");
    assert_eq!((compared.seen.yes, compared.seen.no), (1024, 1024));
}
