//! Records that are lent in other ways: from nowhere, twice, or one within the other.

use std::ptr;

use hubqr::ffi::{hubqr_verify, Verdict};
use reference::cases::Kind;
use reference::random::Random;
use reference::records::{MATRIX_RECORD, RESULT_RECORD};
use reference::verify::verify;

use crate::pair::Pair;

/// The engine's answer for slices, which may overlap.
fn answer(matrix: &[u8], result: &[u8]) -> Verdict {
    // SAFETY: the pointers and lengths come from live slices, which are only read.
    unsafe { hubqr_verify(matrix.as_ptr(), matrix.len(), result.as_ptr(), result.len()) }
}

/// The reference's.
fn due(matrix: &[u8], result: &[u8]) -> Verdict {
    let reply = verify(matrix, result);
    Verdict {
        number: reply.number,
        yes: reply.yes.into(),
    }
}

fn records(number: u64) -> ([u8; MATRIX_RECORD], [u8; RESULT_RECORD]) {
    let matrix = Kind::FullRange.matrix(&mut Random::for_case(1461, number));
    Pair::of_board(matrix).records()
}

/// A pointer may be null where its length is 0.
#[test]
fn no_bytes_from_nowhere() {
    let (matrix, result) = records(0);
    let mut other_kind = matrix;
    other_kind[0] = 9;
    let none = (ptr::null(), 0);
    let from = |record: &[u8]| (record.as_ptr(), record.len());
    let lent = [
        (none, none, 1),
        (none, from(&result), 1),
        (from(&other_kind), none, 1),
        (from(&matrix[..256]), none, 2),
        (from(&matrix), none, 1),
        (from(&matrix), from(&result), 0),
    ];
    for (matrix, result, number) in lent {
        // SAFETY: a pointer is null where its length is 0, and else it comes with its length from a
        // live slice, which is only read.
        let verdict = unsafe { hubqr_verify(matrix.0, matrix.1, result.0, result.1) };
        let yes = u8::from(number == 0);
        assert_eq!(verdict, Verdict { number, yes });
    }
    println!("\nNo bytes from nowhere: {} calls", lent.len());
}

/// One record cannot be of both kinds, and neither can stand for the other.
#[test]
fn the_same_bytes_twice_and_the_two_changed_over() {
    for number in 0..100 {
        let (matrix, result) = records(number);
        let handed = [
            (&matrix[..], &matrix[..], 1),
            (&result[..], &result[..], 1),
            (&matrix[..1], &matrix[..1], 2),
            (&result[..1], &result[..1], 1),
            (&result[..], &matrix[..], 1),
        ];
        for (matrix, result, number) in handed {
            assert_eq!(answer(matrix, result), Verdict { number, yes: 0 });
            assert_eq!(due(matrix, result), Verdict { number, yes: 0 });
        }
    }
    println!("\nThe same bytes twice, and the two changed over: 500 calls");
}

/// A matrix record that stands among the words of Q of the result that is handed over with it, and
/// bytes that begin shortly before it. Both are only read.
#[test]
fn one_record_within_the_other() {
    let mut refused = 0;
    for number in 0..2_000 {
        let mut random = Random::for_case(1462, number);
        let (matrix, mut result) = records(number);
        let first_of_q = 1 + 4 * 256;
        let start = first_of_q + random.below(RESULT_RECORD - first_of_q - MATRIX_RECORD);
        result[start..][..MATRIX_RECORD].copy_from_slice(&matrix);
        let before = result;
        for start in [start, start - random.between(1, 3) as usize] {
            let verdict = answer(&result[start..][..MATRIX_RECORD], &result);
            let copy = before[start..][..MATRIX_RECORD].to_vec();
            assert_eq!(verdict, due(&copy, &before), "case {number}");
            assert_eq!(result, before, "case {number}");
            refused += u64::from(verdict.number != 0);
        }
    }
    println!("\nOne record within the other: 4000 calls, {refused} refused");
}
