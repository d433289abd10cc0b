//! Sums that the host hands in: every sum is tested, at its limit and beyond.

use reference::covariance::{Snapshot, MOST_SNAPSHOTS, SUM_WORDS};
use reference::random::Random;

use crate::common::snapshots::Snapshots;
use crate::common::sums::{BothSums, Seen};
use crate::common::Case;

const COUNTS: [u32; 8] = [0, 1, 2, 4_095, 4_096, 4_097, 1 << 31, u32::MAX];

/// 2^31 times the count, which a sum may reach either way.
fn limit(count: u32) -> i64 {
    i64::from(count) << 31
}

/// A sum within its range: anywhere, near 0 or near a limit.
fn within(count: u32, random: &mut Random) -> i64 {
    let limit = limit(count);
    let near = limit.min(3);
    match random.below(4) {
        0 => random.between(-near, near),
        1 => limit - random.between(0, near),
        2 => random.between(0, near) - limit,
        _ => random.next_u64() as i64 % (limit + 1),
    }
}

/// Writes, adds and writes again, and requires the numbers of the specification.
fn write_and_add(both: &mut BothSums, snapshot: &Snapshot, beyond: bool) {
    let count = both.sums().count();
    let expected = match count {
        _ if beyond || count > MOST_SNAPSHOTS => [10, 10, 10],
        0 => [9, 0, 0],
        MOST_SNAPSHOTS => [0, 10, 0],
        _ => [0, 0, 0],
    };
    let numbers = [both.write(257), both.add(snapshot), both.write(300)];
    both.require(numbers == expected, &format!("{numbers:?}"));
}

#[test]
fn each_sum_may_reach_its_limit_and_no_more() {
    let (mut seen, mut number) = (Seen::default(), 0);
    for count in COUNTS {
        let limit = limit(count);
        let words = [
            (limit, false),
            (-limit, false),
            (limit + 1, true),
            (-limit - 1, true),
            (i64::MIN, true),
            (i64::MAX, true),
        ];
        for place in 0..SUM_WORDS {
            for (word, beyond) in words {
                let case = Case::of_words("limits", 711, number);
                let mut random = case.random();
                let mut sums = std::array::from_fn(|_| within(count, &mut random));
                sums[place] = word;
                let mut both = BothSums::of_words(case, count, &sums, &mut seen);
                write_and_add(&mut both, &Snapshots::Mixed.draw(&mut random), beyond);
                number += 1;
            }
        }
    }
    seen.print(&format!("{number} sums with one at a limit or beyond"));
}

#[test]
fn sums_with_one_word_in_every_place_agree() {
    let (mut seen, mut number) = (Seen::default(), 0);
    for count in COUNTS {
        let limit = limit(count);
        for word in [i64::MIN, -limit - 1, -limit, 0, limit, limit + 1, i64::MAX] {
            for kind in Snapshots::ALL {
                let case = Case::of_words("one word", 712, number);
                let snapshot = kind.draw(&mut case.random());
                let mut both = BothSums::of_words(case, count, &[word; SUM_WORDS], &mut seen);
                let beyond = word > limit || word < -limit;
                write_and_add(&mut both, &snapshot, beyond);
                number += 1;
            }
        }
    }
    seen.print(&format!("{number} sums with one word in every place"));
}

/// What is accepted once is accepted up to the count of 4,096: a sum moves by at most 2^31.
#[test]
fn sums_within_their_range_stay_there() {
    let mut seen = Seen::default();
    for number in 0..3_000 {
        let case = Case::of_words("within the range", 713, number);
        let mut random = case.random();
        let largest = random.choose(&[1, 20, 4_096]);
        let count = random.between(1, largest) as u32;
        let sums = std::array::from_fn(|_| within(count, &mut random));
        let mut both = BothSums::of_words(case, count, &sums, &mut seen);
        for _ in 0..random.between(1, 5) {
            let snapshot = Snapshots::Mixed.draw(&mut random);
            write_and_add(&mut both, &snapshot, false);
        }
    }
    seen.print("Sums within their range");
}

/// Any word at all, one of many sizes.
fn arbitrary(random: &mut Random) -> i64 {
    let word = random.next_u64() as i64;
    word >> random.below(64)
}

#[test]
fn arbitrary_sums_agree() {
    let mut seen = Seen::default();
    for number in 0..4_000 {
        let case = Case::of_words("arbitrary sums", 714, number);
        let mut random = case.random();
        let count = match random.below(3) {
            0 => random.choose(&COUNTS),
            1 => random.below(4_098) as u32,
            _ => random.next_u64() as u32,
        };
        // Of 128 arbitrary sums one nearly always lies beyond; of one or none, often none does.
        let rarity = random.choose(&[1, 20, 128, 1_000]);
        let sums = std::array::from_fn(|_| match random.one_in(rarity) {
            true => arbitrary(&mut random),
            false => within(count, &mut random),
        });
        let mut both = BothSums::of_words(case, count, &sums, &mut seen);
        both.write(random.choose(&[0, 1, 256, 257, 258, 300]));
        both.add(&Snapshots::Mixed.draw(&mut random));
        both.write(random.choose(&[0, 1, 256, 257, 258, 300]));
    }
    seen.print("Arbitrary sums");
    assert!(seen.snapshots >= 500, "few snapshots were added");
    assert!(seen.records >= 500, "few records were written");
}
