//! Zeros and their signs.

use reference::random::Random;
use reference::records::write_result;

use crate::common::triangle::any_accepted;
use crate::common::weights::{bits, Seen, NO_TARGET};
use crate::common::Case;

const MINUS_ZERO: u64 = 1 << 63;

/// 0 divided by a negative word is -0.0. The rows above take off products of it, which are -0.0 or
/// +0.0, and +0.0 less either is +0.0.
#[test]
fn no_target_over_a_negative_last_diagonal_word_is_minus_zero() {
    let mut seen = Seen::NONE;
    for number in 0..2_000 {
        let mut random = Random::for_case(931, number);
        let mut area = any_accepted(&mut random);
        let negative = -random.between(1, 1 << 31) as i32;
        let last = random.choose(&[-1, i32::MIN, negative, 1, i32::MAX]);
        area.set_word(15, 15, last);
        let record = write_result(&area);
        let case = Case::new("signs of zero", 931, number, &record);
        let reply = seen.weights(&case, &record, &NO_TARGET);
        let mut expected = [(0, 0); 8];
        expected[7].1 = if last < 0 { MINUS_ZERO } else { 0 };
        assert_eq!(bits(&reply), (0, expected), "{case}");
    }
    seen.print("No target");
}

/// The same where right-hand sums are 0 because their products cancel: the sum is a whole number,
/// which has no -0.
#[test]
fn sums_that_cancel_are_zero_without_a_sign() {
    let mut seen = Seen::NONE;
    for number in 0..500 {
        let mut random = Random::for_case(932, number);
        let mut area = any_accepted(&mut random);
        area.set_word(15, 15, random.choose(&[-1, 1]));
        for row in 0..16 {
            (16..32).for_each(|column| area.set_word(row, column, 0));
            let word = random.between(i64::from(-i32::MAX), i32::MAX.into()) as i32;
            area.set_word(row, 16 + 3, word);
            area.set_word(row, 16 + 12, -word);
        }
        let mut targets = NO_TARGET;
        let part = random.part();
        (targets[3].0, targets[4].1) = (part, part);
        let record = write_result(&area);
        let case = Case::new("sums of zero", 932, number, &record);
        let reply = seen.weights(&case, &record, &targets);
        let mut expected = [(0, 0); 8];
        expected[7].1 = if area.r(15, 15) < 0 { MINUS_ZERO } else { 0 };
        assert_eq!(bits(&reply), (0, expected), "{case}");
    }
    seen.print("Sums that cancel");
}
