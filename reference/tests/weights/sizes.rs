//! The largest weights, and very small ones.

use reference::area::WorkArea;
use reference::matrix::{ANTENNAS, REAL_SIZE};
use reference::random::Random;
use reference::records::write_result;
use reference::weights::weights;

use crate::common::triangle::triangle;
use crate::common::weights::{any_targets, Seen, Targets, NO_TARGET};
use crate::common::Case;
use crate::rules::Compared;

const LOWEST: i32 = i32::MIN;
const HIGHEST: i32 = i32::MAX;

/// The first target is 1 and all else 0, so that the first column of Q transposed is the right-hand
/// sums.
const ONE_TARGET: Targets = {
    let mut targets = NO_TARGET;
    targets[0] = (1, 0);
    targets
};

/// With all words -2^31, all targets' parts -32768 and a diagonal of 1 every right-hand side is
/// 2^33, and each row adds to it 2^31 times the sum of the components behind, so that the first
/// component is 2^33 times (1 + 2^31)^15. No record gives a larger one, but for what rounding adds.
#[test]
fn the_largest_weight_is_above_two_to_the_480_and_finite() {
    let mut seen = Seen::NONE;
    let record = write_result(&triangle(|| LOWEST, |_| 1));
    let case = Case::new("largest weight", 0, 0, &record);
    let reply = seen.weights(&case, &record, &[(i16::MIN, i16::MIN); 8]);
    let (re, im) = reply.weights[0];
    seen.print("The largest weight");
    assert!(re > 480_f64.exp2() && re.is_finite(), "{re:e}");
    assert!(re > 498_f64.exp2() && re < 498.001_f64.exp2(), "{re:e}");
    assert!(im > 250_f64.exp2() && im < 251_f64.exp2(), "{im:e}");
}

#[test]
fn words_at_the_ends_over_small_diagonals_give_huge_weights() {
    let mut compared = Compared::NONE;
    for number in 0..2_000 {
        let mut random = Random::for_case(971, number);
        let most = random.choose(&[1, 2, 1_000]);
        let diagonal: [i32; REAL_SIZE] = std::array::from_fn(|_| random.between(1, most) as i32);
        let mut word = || random.choose(&[LOWEST, HIGHEST]);
        let record = write_result(&triangle(&mut word, |i| diagonal[i]));
        let case = Case::new("huge weights", 971, number, &record);
        compared.weights(&case, &record, &any_targets(&mut random));
    }
    compared.print_and_require_all_rules("Words at the ends over small diagonals");
    assert!(compared.seen.largest > 480_f64.exp2());
}

/// R of the same word all along its diagonal and 0 elsewhere, and a right-hand sum of 1 in row 15
/// for [`ONE_TARGET`], so that the last component is 2^-17 divided by that word.
fn small_last(diagonal: i32) -> WorkArea {
    let mut area = triangle(|| 0, |_| diagonal);
    area.set_word(REAL_SIZE - 1, REAL_SIZE, 1);
    area
}

/// Component i for [`ONE_TARGET`].
fn component(area: &WorkArea, i: usize) -> f64 {
    let weights = weights(&write_result(area), &ONE_TARGET).weights;
    if i < ANTENNAS {
        weights[i].0
    } else {
        weights[i - ANTENNAS].1
    }
}

/// The smallest part for [`ONE_TARGET`], after both sides agreed on it.
fn smallest(test: &'static str, area: &WorkArea) -> f64 {
    let (mut seen, record) = (Seen::NONE, write_result(area));
    seen.weights(&Case::new(test, 0, 0, &record), &record, &ONE_TARGET);
    seen.print(test);
    seen.smallest
}

/// Each row divides the component of the next one by the highest word.
#[test]
fn a_row_after_the_other_divides_by_the_highest_word() {
    let mut area = small_last(HIGHEST);
    (1..REAL_SIZE).for_each(|j| area.set_word(j - 1, j, 1));
    let smallest = smallest("Highest words on the diagonal", &area);
    assert!(smallest > (-514_f64).exp2() && smallest < (-512_f64).exp2());
}

/// The lower of two rows divides the component x behind both by a small number, and the upper one
/// multiplies the quotient by that number and takes off x. What is left is the rounding, 2^-53 of
/// x, and this is divided by 2^30 + 1. That word makes of a power of two a component just under the
/// next one, where a step of a float is the smallest share of it.
#[test]
fn rows_that_cancel_give_tiny_weights() {
    let mut area = small_last((1 << 30) + 1);
    area.set_word(0, 1, 1);
    for upper in (1..REAL_SIZE - 2).rev().step_by(2) {
        let lower = upper + 1;
        area.set_word(upper, lower + 1, 1);
        area.set_word(lower, lower + 1, 1);
        let rounds = (3..1_000).find(|&divisor| {
            area.set_word(lower, lower, divisor);
            area.set_word(upper, lower, divisor);
            component(&area, upper) != 0.0
        });
        assert!(rounds.is_some(), "nothing was rounded in row {upper}");
    }
    let smallest = smallest("Rows that cancel", &area);
    assert!(smallest < (-650_f64).exp2());
}

#[test]
fn small_words_over_high_diagonals_give_small_weights() {
    let mut seen = Seen::NONE;
    for number in 0..2_000 {
        let mut random = Random::for_case(972, number);
        let rarity = random.choose(&[1, 3, 10, 30]);
        let mut word = || match random.one_in(rarity) {
            true => random.between(-2, 2) as i32,
            false => 0,
        };
        let record = write_result(&triangle(&mut word, |i| HIGHEST - i as i32));
        let case = Case::new("small weights", 972, number, &record);
        seen.weights(&case, &record, &ONE_TARGET);
    }
    seen.print("Small words over high diagonals");
    assert!(seen.smallest < (-100_f64).exp2());
}
