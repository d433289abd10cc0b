//! One turn: a Givens rotation by CORDIC micro-steps.

use crate::area::{WorkArea, COLUMNS};
use crate::clamps::Clamps;
use crate::schedule::Turn;

/// Micro-steps of a rotation.
pub const STEPS: usize = 28;

/// What takes the growth of the micro-steps back, in units of 2^-30.
pub const GAIN: i64 = 652_032_874;

/// A rotation as the leading column decides it: what every column of the turn has to do.
struct Rotation {
    /// Both words change sign first.
    negate: bool,
    /// For each micro-step 1 where the lower word is 0 or more, and -1 otherwise.
    directions: [i64; STEPS],
}

impl Rotation {
    /// Vectoring: finds the rotation that clears the lower word of the leading column. There is
    /// none where that word is 0 already and the upper one has the sign that a rotation leaves.
    fn clearing(upper: i32, lower: i32) -> Option<Self> {
        let negate = upper < 0;
        if lower == 0 && !negate {
            return None;
        }
        let (mut u, mut v) = signed(upper, lower, negate);
        let mut directions = [0; STEPS];
        for (i, direction) in directions.iter_mut().enumerate() {
            *direction = if v >= 0 { 1 } else { -1 };
            (u, v) = micro_step(u, v, i, *direction);
        }
        Some(Rotation { negate, directions })
    }

    /// Rotates one column's words; the result has not been scaled yet.
    fn apply(&self, upper: i32, lower: i32) -> (i64, i64) {
        let start = signed(upper, lower, self.negate);
        let steps = self.directions.iter().enumerate();
        steps.fold(start, |(u, v), (i, &direction)| {
            micro_step(u, v, i, direction)
        })
    }
}

/// Both words in 64 bits, negated if asked.
fn signed(upper: i32, lower: i32, negate: bool) -> (i64, i64) {
    let sign = if negate { -1 } else { 1 };
    (sign * i64::from(upper), sign * i64::from(lower))
}

/// Micro-step `i`. Both shifts floor, and both see the words from before the step.
fn micro_step(u: i64, v: i64, i: usize, direction: i64) -> (i64, i64) {
    (u + direction * (v >> i), v - direction * (u >> i))
}

/// Multiplies by the gain and rounds: the floor of (w × gain + 2^29) / 2^30.
fn scale(word: i64) -> i64 {
    let product = i128::from(word) * i128::from(GAIN);
    let rounded = (product + (1 << 29)) >> 30;
    i64::try_from(rounded).expect("the gain is below one, so the product fits")
}

/// Clamps to 32 bits, and says whether that altered the word.
fn saturate(word: i64) -> (i32, bool) {
    let clamped = word.clamp(i64::from(i32::MIN), i64::from(i32::MAX));
    (clamped as i32, clamped != word)
}

/// Makes one turn on the area and answers the clamps it counted. A turn whose leading column is
/// clear is skipped: it answers nothing and leaves the area as it is.
pub fn rotate(area: &mut WorkArea, turn: Turn) -> Option<Clamps> {
    let Turn {
        column: leading,
        upper,
        lower,
    } = turn;
    let rotation = Rotation::clearing(area.word(upper, leading), area.word(lower, leading))?;
    let mut clamps = Clamps::NONE;
    for column in leading..COLUMNS {
        let (u, v) = rotation.apply(area.word(upper, column), area.word(lower, column));
        store(area, upper, column, u, &mut clamps);
        if column == leading {
            // The rotation leaves a rest of a few units here; it is dropped and never counts.
            area.set_word(lower, column, 0);
        } else {
            store(area, lower, column, v, &mut clamps);
        }
    }
    Some(clamps)
}

/// Scales, clamps and stores a rotated word, and counts it if clamping altered it.
fn store(area: &mut WorkArea, row: usize, column: usize, word: i64, clamps: &mut Clamps) {
    let (stored, clamped) = saturate(scale(word));
    area.set_word(row, column, stored);
    if clamped {
        clamps.count(column);
    }
}

#[cfg(test)]
mod tests {
    use super::*;
    use crate::area::AREA_WORDS;

    const LAST_TURN: Turn = Turn {
        column: 14,
        upper: 14,
        lower: 15,
    };

    /// Rotates an area of zeros but for the leading pair, and answers the pair, and the clamps of a
    /// turn that was not skipped.
    fn rotate_pair(upper: i32, lower: i32) -> (i32, i32, Option<Clamps>) {
        let mut area = WorkArea::from_words(&[0; AREA_WORDS]);
        area.set_word(14, 14, upper);
        area.set_word(15, 14, lower);
        let clamps = rotate(&mut area, LAST_TURN);
        (area.word(14, 14), area.word(15, 14), clamps)
    }

    #[test]
    fn marked_case_m9() {
        assert_eq!([2, -1, 3].map(scale), [1, -1, 2]);
    }

    /// An odd multiple of 2^28 times the gain, over 2^30, ends in a half.
    #[test]
    fn a_half_is_rounded_up() {
        assert_eq!(scale(268_435_456), 163_008_219);
        let made = Some(Clamps::NONE);
        assert_eq!(rotate_pair(-163_008_213, 0), (163_008_219, 0, made));
    }

    /// The pair of M10 is not turned, so M12 alone tells 28 micro-steps from 27 or 29.
    #[test]
    fn marked_cases_m10_to_m12() {
        let made = Some(Clamps::NONE);
        assert_eq!(rotate_pair(1, 0), (1, 0, None));
        assert_eq!(rotate_pair(0, 1), (1, 0, made));
        assert_eq!(rotate_pair(-1, 0), (17, 0, made));
    }

    #[test]
    fn a_clear_pair_with_no_negative_upper_word_is_skipped() {
        for upper in [0, 1, 2, 12_345, i32::MAX - 1, i32::MAX] {
            assert_eq!(rotate_pair(upper, 0), (upper, 0, None));
            for lower in [i32::MIN, -1, 1, i32::MAX] {
                assert!(rotate_pair(upper, lower).2.is_some(), "({upper}, {lower})");
            }
        }
        for upper in [i32::MIN, -12_345, -2, -1] {
            assert!(rotate_pair(upper, 0).2.is_some(), "({upper}, 0)");
        }
    }

    /// Words at the ends of the range, which a rotation by nearly any angle takes beyond.
    #[test]
    fn a_skipped_turn_leaves_its_rows_and_counts_no_clamp() {
        let ends = std::array::from_fn(|k| if k % 3 == 0 { i32::MIN } else { i32::MAX });
        let mut area = WorkArea::from_words(&ends);
        area.set_word(15, 14, 0);
        for (upper, skipped) in [(0, true), (1, true), (-1, false)] {
            area.set_word(14, 14, upper);
            let before = area.clone();
            let clamps = rotate(&mut area, LAST_TURN);
            assert_eq!(clamps.is_none(), skipped, "({upper}, 0)");
            assert_eq!(area == before, skipped, "({upper}, 0)");
            assert!(clamps.is_none_or(|clamps| clamps.r > 0 && clamps.q > 0));
        }
    }

    #[test]
    fn a_shift_floors() {
        assert_eq!(micro_step(0, -1, 5, -1), (1, -1));
        assert_eq!(micro_step(-1, 0, 5, 1), (-1, 1));
    }

    #[test]
    fn saturation_counts_only_altered_words() {
        let (min, max) = (i64::from(i32::MIN), i64::from(i32::MAX));
        assert_eq!(saturate(max), (i32::MAX, false));
        assert_eq!(saturate(max + 1), (i32::MAX, true));
        assert_eq!(saturate(min), (i32::MIN, false));
        assert_eq!(saturate(min - 1), (i32::MIN, true));
    }

    #[test]
    fn the_largest_leading_pair_counts_one_clamp() {
        let one = Clamps { r: 1, q: 0 };
        assert_eq!(rotate_pair(i32::MIN, i32::MIN), (i32::MAX, 0, Some(one)));
    }

    #[test]
    fn a_turn_touches_only_its_rows_and_columns() {
        let words: [i32; AREA_WORDS] = std::array::from_fn(|k| 1_000_000 + 977 * k as i32);
        let before = WorkArea::from_words(&words);
        let mut after = before.clone();
        rotate(
            &mut after,
            Turn {
                column: 3,
                upper: 5,
                lower: 9,
            },
        );
        for row in 0..16 {
            for column in 0..COLUMNS {
                let turned = (row == 5 || row == 9) && column >= 3;
                let same = before.word(row, column) == after.word(row, column);
                assert_eq!(same, !turned, "row {row}, column {column}");
            }
        }
    }

    /// A natural number of any size: limbs of 64 bits, the lowest first.
    struct Natural(Vec<u64>);

    impl Natural {
        fn product(factors: impl Iterator<Item = u64>) -> Self {
            let mut limbs = vec![1];
            for factor in factors {
                let mut carry = 0;
                for limb in &mut limbs {
                    let sum = u128::from(*limb) * u128::from(factor) + carry;
                    *limb = sum as u64;
                    carry = sum >> 64;
                }
                limbs.push(carry as u64);
            }
            Natural(limbs)
        }

        fn is_at_most_power_of_two(&self, exponent: usize) -> bool {
            let ones: u32 = self.0.iter().map(|limb| limb.count_ones()).sum();
            let top = self.0.iter().rposition(|&limb| limb != 0);
            let length = top.map_or(0, |k| 64 * k + self.0[k].ilog2() as usize + 1);
            length <= exponent || (length == exponent + 1 && ones == 1)
        }
    }

    /// With both sides multiplied by the product of 4^i, which is 2^756, the rule for the gain is
    /// one about whole numbers: gain^2 × the product of (4^i + 1) is at most 2^(60 + 756).
    #[test]
    fn the_gain_is_the_largest_that_the_rule_allows() {
        let fits = |gain: i64| {
            let steps = (0..STEPS as u32).map(|i| 4u64.pow(i) + 1);
            let factors = steps.chain([gain as u64, gain as u64]);
            Natural::product(factors).is_at_most_power_of_two(60 + 756)
        };
        assert!(fits(GAIN));
        assert!(!fits(GAIN + 1));
    }

    #[test]
    fn powers_of_two_are_compared_exactly() {
        let power = Natural::product([1 << 40, 1 << 60].into_iter());
        assert!(power.is_at_most_power_of_two(100));
        assert!(!power.is_at_most_power_of_two(99));
        let above = Natural::product([(1 << 50) + 1, 1 << 50].into_iter());
        assert!(!above.is_at_most_power_of_two(100));
    }
}
