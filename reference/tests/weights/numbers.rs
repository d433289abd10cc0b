//! Every refusal number with every set of failing tests, so that the order of the tests decides.

use std::collections::BTreeSet;

use reference::random::Random;
use reference::records::write_result;

use crate::common::triangle::any_accepted;
use crate::common::weights::{any_targets, Seen};
use crate::common::Case;

/// Ways to pass a test, first, and to fail it.
const KINDS: [u8; 6] = [2, 0, 1, 3, 0x82, 0xFF];
const LENGTHS: [usize; 5] = [2049, 1, 2048, 2050, 4097];
const PLACES: [(usize, usize, i32); 6] = [
    (0, 15, -1),
    (1, 0, 1),
    (15, 14, i32::MIN),
    (15, 0, -1),
    (0, 0, -1),
    (14, 14, i32::MIN),
];
/// Rows with 0 on the diagonal, none of them where [`PLACES`] puts a word.
const ZEROS: [&[usize]; 5] = [&[], &[1], &[7], &[15], &[1, 13, 15]];

/// A record that passes or fails each test in one of these ways.
struct Ways {
    kind: u8,
    length: usize,
    place: (usize, usize, i32),
    zeros: &'static [usize],
}

impl Ways {
    fn all() -> impl Iterator<Item = Ways> {
        KINDS.into_iter().flat_map(|kind| {
            LENGTHS.into_iter().flat_map(move |length| {
                PLACES.into_iter().flat_map(move |place| {
                    ZEROS.map(|zeros| Ways {
                        kind,
                        length,
                        place,
                        zeros,
                    })
                })
            })
        })
    }

    fn record(&self, random: &mut Random) -> Vec<u8> {
        let mut area = any_accepted(random);
        let (i, j, word) = self.place;
        area.set_word(i, j, word);
        self.zeros.iter().for_each(|&i| area.set_word(i, i, 0));
        let mut record = write_result(&area).to_vec();
        record[0] = self.kind;
        record.resize(self.length, random.byte());
        record
    }

    /// The tests that fail, in the order in which they are made.
    fn failing(&self) -> Vec<u8> {
        let tests = [
            (1, self.kind != KINDS[0]),
            (2, self.length != LENGTHS[0]),
            (8, self.place != PLACES[0]),
            (11, self.zeros != ZEROS[0]),
        ];
        let failing = tests.into_iter().filter(|(_, fails)| *fails);
        failing.map(|(number, _)| number).collect()
    }
}

#[test]
fn a_refusal_answers_the_first_test_that_fails() {
    let (mut seen, mut sets) = (Seen::NONE, BTreeSet::new());
    for (ways, number) in Ways::all().zip(0..) {
        let mut random = Random::for_case(951, number);
        let record = ways.record(&mut random);
        let case = Case::new("sets of tests", 951, number, &record);
        let reply = seen.weights(&case, &record, &any_targets(&mut random));
        let failing = ways.failing();
        let first = failing.first().copied().unwrap_or(0);
        assert_eq!(reply.number, first, "failing {failing:?}\n{case}");
        sets.insert(failing);
    }
    seen.print(&format!("Weights, failing {sets:?}"));
    assert_eq!(sets.len(), 16, "not every set of tests failed");
}
