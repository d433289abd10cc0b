//! Records of every length and kind, and records with damaged bytes.

use reference::cases::Kind;
use reference::random::Random;
use reference::records::{MATRIX_RECORD, RESULT_RECORD};

use crate::common::verify::Seen;
use crate::common::Case;
use crate::pair::Pair;

const LONGEST: usize = 2_100;

/// A matrix record and what a board writes for it.
fn records(kind: Kind, random: &mut Random) -> (Vec<u8>, Vec<u8>) {
    let (matrix, result) = Pair::of_board(kind.matrix(random)).records();
    (matrix.to_vec(), result.to_vec())
}

/// The number for a record of this length that is right elsewhere.
fn due(length: usize, right: usize) -> u8 {
    match length {
        0 => 1,
        _ if length == right => 0,
        _ => 2,
    }
}

/// Either record cut or with more behind it, the other one right.
#[test]
fn records_of_every_length() {
    let mut seen = Seen::default();
    let mut random = Random::new(1451);
    let (matrix, result) = records(Kind::FullRange, &mut random);
    let [mut long, mut longer] = [matrix.clone(), result.clone()];
    long.resize_with(LONGEST, || random.byte());
    longer.resize_with(LONGEST, || random.byte());
    for length in 0..=LONGEST {
        let case = Case::new("lengths", 1451, length as u64, &long[..length]);
        let cut_matrix = seen.verify(&case, &long[..length], &result);
        assert_eq!(cut_matrix.number, due(length, MATRIX_RECORD), "{case}");
        let cut_result = seen.verify(&case, &matrix, &longer[..length]);
        assert_eq!(cut_result.number, due(length, RESULT_RECORD), "{case}");
    }
    seen.print("Records of every length");
    assert_eq!((seen.yes, seen.no), (2, 0));
}

/// Either record with every kind byte, the other one right.
#[test]
fn records_of_every_kind() {
    let mut seen = Seen::default();
    let (matrix, result) = records(Kind::Covariance, &mut Random::new(1452));
    for byte in 0..=255 {
        for kinds in [[byte, 2], [1, byte]] {
            let [mut matrix, mut result] = [matrix.clone(), result.clone()];
            [matrix[0], result[0]] = kinds;
            let case = Case::new("kinds", 1452, byte.into(), &matrix);
            let reply = seen.verify(&case, &matrix, &result);
            let right = kinds == [1, 2];
            assert_eq!(
                (reply.number, reply.yes),
                (u8::from(!right), right),
                "{kinds:?}"
            );
        }
    }
    seen.print("Records of every kind");
    assert_eq!((seen.yes, seen.no), (2, 0));
}

/// Every bit of either record behind its kind byte, one at a time.
#[test]
fn a_flipped_bit_anywhere() {
    let mut seen = Seen::default();
    let (matrix, result) = records(Kind::FullRange, &mut Random::new(1453));
    let bits = 8..8 * (MATRIX_RECORD + RESULT_RECORD);
    for bit in bits.filter(|bit| bit / 8 != MATRIX_RECORD) {
        let mut both = [&matrix[..], &result[..]].concat();
        both[bit / 8] ^= 0x80 >> (bit % 8);
        let (matrix, result) = both.split_at(MATRIX_RECORD);
        let case = Case::new("flipped bit", 1453, bit as u64, matrix);
        seen.verify(&case, matrix, result);
    }
    seen.print("Records with a flipped bit");
    seen.assert_numbers(&[8]);
    assert_eq!(seen.refusals[&8], 120 * 32 + 15);
    assert!(seen.yes > 1_000 && seen.no > 1_000);
}

/// Any number of bytes in either record, the kind bytes too, and any lengths.
#[test]
fn damaged_bytes_and_lengths() {
    let mut seen = Seen::default();
    for number in 0..6_000 {
        let mut random = Random::for_case(1454, number);
        let kind = random.choose(&Kind::ALL);
        let (mut matrix, mut result) = records(kind, &mut random);
        for record in [&mut matrix, &mut result] {
            for _ in 0..random.choose(&[0, 0, 1, 1, 2, 30]) {
                let place = random.below(record.len());
                record[place] = random.byte();
            }
            if random.one_in(6) {
                record[0] = random.byte();
            }
            if random.one_in(6) {
                let length = random.below(record.len() + 20);
                record.resize_with(length, || random.byte());
            }
        }
        let case = Case::new("damaged", 1454, number, &matrix);
        seen.verify(&case, &matrix, &result);
    }
    seen.print("Damaged records");
    seen.assert_numbers(&[1, 2, 4, 8]);
    assert!(seen.yes > 300 && seen.no > 1_000);
}
