//! Every refusal number, with every set of failing tests, so that the order of the tests decides.

use std::collections::BTreeSet;

use reference::covariance::{Snapshot, SUM_WORDS};
use reference::matrix::{Complex, ANTENNAS};

use crate::common::sums::{BothSums, Seen};
use crate::common::Case;

/// Bytes of the buffers that a record is written to.
const RECORD_BUFFERS: [usize; 6] = [0, 1, 256, 257, 258, 300];

const SNAPSHOT: Snapshot = [Complex::new(-32768, 32767); ANTENNAS];

/// Counts, and the sum of one place that goes with them: 0, within its range or beyond.
const SUMS: [(u32, i64); 15] = [
    (0, 0),
    (0, 1),
    (0, -1),
    (1, 0),
    (1, -1 << 31),
    (1, (1 << 31) + 1),
    (4_095, 4_095 << 31),
    (4_095, (-4_095 << 31) - 1),
    (4_096, 0),
    (4_096, 4_096 << 31),
    (4_096, i64::MAX),
    (4_097, 0),
    (4_097, i64::MIN),
    (u32::MAX, 0),
    (u32::MAX, i64::MIN),
];

fn one_word(place: usize, word: i64) -> [i64; SUM_WORDS] {
    let mut words = [0; SUM_WORDS];
    words[place] = word;
    words
}

fn lies_beyond((count, sum): (u32, i64)) -> bool {
    sum.unsigned_abs() > u64::from(count) << 31
}

/// Which of a call's tests fail, in the order in which it makes them.
fn failing<const N: usize>(tests: [(u8, bool); N]) -> Vec<u8> {
    let failing = tests.into_iter().filter(|(_, fails)| *fails);
    failing.map(|(number, _)| number).collect()
}

#[test]
fn a_refused_write_answers_the_first_test_that_fails() {
    let (mut seen, mut sets) = (Seen::default(), BTreeSet::new());
    for (sums, number) in SUMS.into_iter().zip(0..) {
        for bytes in RECORD_BUFFERS {
            let failing = failing([
                (10, sums.0 > 4_096 || lies_beyond(sums)),
                (9, sums.0 == 0),
                (7, bytes < 257),
            ]);
            let case = Case::of_words("sets of tests at writing", 721, number);
            let words = one_word(case.random().below(SUM_WORDS), sums.1);
            let mut both = BothSums::of_words(case, sums.0, &words, &mut seen);
            let answered = both.write(bytes);
            let first = failing.first().copied().unwrap_or(0);
            both.require(answered == first, "another test than the first decided");
            sets.insert(failing);
        }
    }
    seen.print(&format!("Writing, failing {sets:?}"));
    assert_eq!(sets.len(), 8, "not every set of tests failed");
}

#[test]
fn a_refused_add_answers_10_and_the_sums_as_they_were() {
    let (mut seen, mut sets) = (Seen::default(), BTreeSet::new());
    for (sums, number) in SUMS.into_iter().zip(0..) {
        let failing = (sums.0 >= 4_096, lies_beyond(sums));
        let case = Case::of_words("sets of tests at adding", 722, number);
        let words = one_word(case.random().below(SUM_WORDS), sums.1);
        let mut both = BothSums::of_words(case, sums.0, &words, &mut seen);
        let answered = both.add(&SNAPSHOT);
        if failing == (false, false) {
            both.require(answered == 0, "sums within their range were refused");
            both.require(both.sums().count() == sums.0 + 1, "the count is wrong");
        } else {
            both.require(answered == 10, "sums beyond were accepted");
            let kept = both.sums().count() == sums.0 && both.sums().to_words() == words;
            both.require(kept, "refused sums changed");
        }
        sets.insert(failing);
    }
    seen.print("Adding");
    assert_eq!(sets.len(), 4, "not every set of tests failed");
}
