//! Records of every length, and records with a damaged byte.

use reference::matrix::REAL_SIZE;
use reference::random::Random;
use reference::records::{write_result, RESULT_RECORD};

use crate::common::triangle::{any_accepted, triangle};
use crate::common::weights::{any_targets, Seen};
use crate::common::Case;

const LONGEST: usize = 2_100;

#[test]
fn records_of_every_length() {
    let mut seen = Seen::NONE;
    let mut random = Random::new(961);
    let mut valid = write_result(&any_accepted(&mut random)).to_vec();
    valid.resize_with(LONGEST, || random.byte());
    for length in 0..=LONGEST {
        for kind in 0..=4 {
            valid[0] = kind;
            let record = &valid[..length];
            let case = Case::new("lengths", 961, length as u64, record);
            let reply = seen.weights(&case, record, &any_targets(&mut random));
            let number = match (kind, length) {
                (_, 0) => 1,
                (2, RESULT_RECORD) => 0,
                (2, _) => 2,
                _ => 1,
            };
            assert_eq!(reply.number, number, "{case}");
        }
    }
    seen.print("Records of every length");
}

/// The diagonal is of powers of two, so that a flipped bit makes 0 of each of its words.
#[test]
fn a_flipped_bit_anywhere_behind_the_kind_byte() {
    let mut seen = Seen::NONE;
    let mut random = Random::new(962);
    let valid = write_result(&triangle(|| random.word(), |i| 1 << (2 * i)));
    for bit in 0..8 * (RESULT_RECORD - 1) {
        let mut record = valid;
        record[1 + bit / 8] ^= 0x80 >> (bit % 8);
        let (k, in_word) = (bit / 32, 31 - bit % 32);
        let (i, j) = (k / REAL_SIZE, k % REAL_SIZE);
        let number = match (i, j) {
            _ if i >= REAL_SIZE => 0,
            _ if i > j => 8,
            _ if i == j && in_word == 2 * i => 11,
            _ if i == j && in_word == 31 && i < REAL_SIZE - 1 => 8,
            _ => 0,
        };
        let case = Case::new("flipped bit", 962, bit as u64, &record);
        let reply = seen.weights(&case, &record, &any_targets(&mut random));
        assert_eq!(reply.number, number, "bit {in_word} of ({i}, {j})\n{case}");
    }
    seen.print("Records with a flipped bit");
    assert_eq!(seen.refusals[&8], 120 * 32 + 15);
    assert_eq!(seen.refusals[&11], 16);
}
