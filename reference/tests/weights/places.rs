//! Each word of R by itself, at every place where it is tested.

use reference::matrix::REAL_SIZE;
use reference::random::Random;
use reference::records::write_result;

use crate::common::triangle::any_accepted;
use crate::common::weights::{any_targets, Seen};
use crate::common::Case;

/// Puts words into accepted records, one at a time, and requires the number that is due.
struct Places {
    test: &'static str,
    seed: u64,
    cases: u64,
    seen: Seen,
}

impl Places {
    fn new(test: &'static str, seed: u64) -> Self {
        Places {
            test,
            seed,
            cases: 0,
            seen: Seen::NONE,
        }
    }

    fn require(&mut self, (i, j): (usize, usize), word: i32, number: u8) {
        let mut random = Random::for_case(self.seed, self.cases);
        let mut area = any_accepted(&mut random);
        area.set_word(i, j, word);
        let record = write_result(&area);
        let case = Case::new(self.test, self.seed, self.cases, &record);
        let targets = any_targets(&mut random);
        let reply = self.seen.weights(&case, &record, &targets);
        assert_eq!(reply.number, number, "{word} at ({i}, {j})\n{case}");
        self.cases += 1;
    }

    /// Words other than 0, of either sign.
    fn words(&self) -> [i32; 6] {
        let mut random = Random::for_case(!self.seed, self.cases);
        let bit = 1 << random.below(31);
        [1, -1, i32::MIN, i32::MAX, bit, random.word() | 1]
    }
}

#[test]
fn each_diagonal_word_of_zero_is_refused_with_11() {
    let mut places = Places::new("zero on the diagonal", 941);
    for i in 0..REAL_SIZE {
        for _ in 0..20 {
            places.require((i, i), 0, 11);
        }
    }
    places.seen.print("A diagonal word of 0");
}

#[test]
fn negative_diagonal_words_are_refused_but_the_last() {
    let mut places = Places::new("signs on the diagonal", 942);
    for i in 0..REAL_SIZE {
        for word in places.words() {
            let refused = word < 0 && i < REAL_SIZE - 1;
            places.require((i, i), word, if refused { 8 } else { 0 });
        }
    }
    places.seen.print("A diagonal word of either sign");
}

#[test]
fn each_word_under_the_diagonal_is_refused_and_none_above() {
    let mut places = Places::new("words beside the diagonal", 943);
    for i in 0..REAL_SIZE {
        for j in (0..REAL_SIZE).filter(|&j| j != i) {
            for word in places.words() {
                places.require((i, j), word, if i > j { 8 } else { 0 });
            }
            places.require((i, j), 0, 0);
        }
    }
    places.seen.print("A word beside the diagonal");
}
