//! What is refused: the tests of the matrix record, then those of the result record.
use super::case::{places, Case, SIZE};
use crate::lent::{equal_parts, matrix, mixed_matrix};
use hubqr::ffi::{self, Verdict};
use hubqr::Refusal::{self, *};
use hubqr::{KIND_MATRIX, KIND_REFUSAL, KIND_RESULT, MATRIX_RECORD_BYTES, RESULT_RECORD_BYTES};
use std::mem::{offset_of, size_of};
use std::ptr;

/// The safe call refuses, and the archive's verdict has 0 for yes.
fn refused(matrix: &[u8], result: &[u8], with: Refusal) {
    assert_eq!(hubqr::verify(matrix, result), Err(with));
    assert_eq!(raw(matrix, result), neither(with));
}

fn raw(matrix: &[u8], result: &[u8]) -> Verdict {
    let (bytes, result_bytes) = (matrix.len(), result.len());
    // SAFETY: pointers and lengths are those of slices.
    unsafe { ffi::hubqr_verify(matrix.as_ptr(), bytes, result.as_ptr(), result_bytes) }
}

/// What a refused call answers.
fn neither(with: Refusal) -> Verdict {
    Verdict {
        number: with.number(),
        yes: 0,
    }
}

/// Matrix records that are refused, with no antenna heard in some that are refused for another reason.
fn wrong_matrices() -> Vec<(Vec<u8>, Refusal)> {
    let mut records = vec![
        (vec![], WrongKind),
        (vec![KIND_MATRIX], WrongLength),
        (equal_parts(16), NoneHeard),
        (vec![0], WrongKind),
        (vec![KIND_RESULT], WrongKind),
        (Case::heard_at(0).result(), WrongKind),
        (equal_parts(0), NoneHeard),
        (equal_parts(i16::MIN), NoneHeard),
        (
            matrix(|i, j| (if i == j { 16 } else { i16::MAX }, i16::MAX)),
            NoneHeard,
        ),
    ];
    for matrix in [mixed_matrix(), equal_parts(0)] {
        let short = &matrix[..MATRIX_RECORD_BYTES - 1];
        records.push(([&[KIND_REFUSAL], &matrix[1..]].concat(), WrongKind));
        records.push(([&[KIND_RESULT], &short[1..]].concat(), WrongKind));
        records.push((short.to_vec(), WrongLength));
        records.push(([&matrix[..], &[0]].concat(), WrongLength));
        let longer = [&matrix[..], &[0; RESULT_RECORD_BYTES]].concat();
        records.push((longer[..RESULT_RECORD_BYTES].to_vec(), WrongLength));
    }
    records
}

/// Result records that are refused, with the rule of R broken in some that are refused for another
/// reason.
fn wrong_results() -> Vec<(Vec<u8>, Refusal)> {
    let mut broken = Case::heard_at(0);
    broken.r[3][1] = 1;
    let mut records = vec![
        (vec![], WrongKind),
        (vec![KIND_MATRIX], WrongKind),
        (mixed_matrix(), WrongKind),
        (vec![KIND_RESULT], WrongLength),
        (broken.result(), NotTriangular),
    ];
    for result in [Case::heard_at(0).result(), broken.result()] {
        let short = &result[..RESULT_RECORD_BYTES - 1];
        records.push(([&[KIND_MATRIX], &result[1..]].concat(), WrongKind));
        records.push(([&[KIND_REFUSAL], &short[1..]].concat(), WrongKind));
        records.push((short.to_vec(), WrongLength));
        records.push((result[..MATRIX_RECORD_BYTES].to_vec(), WrongLength));
        records.push(([&result[..], &[0]].concat(), WrongLength));
    }
    records
}

#[test]
fn a_verdict_has_its_layout_in_c() {
    assert_eq!(size_of::<Verdict>(), 2);
    assert_eq!(
        (offset_of!(Verdict, number), offset_of!(Verdict, yes)),
        (0, 1)
    );
}

#[test]
fn yes_is_1_and_no_is_0() {
    let yes = Case::heard_at(0);
    let mut no = yes.clone();
    no.q[0][0] = 0;
    for (case, yes) in [(yes, 1), (no, 0)] {
        let verdict = raw(&case.matrix(), &case.result());
        assert_eq!(verdict, Verdict { number: 0, yes });
    }
}

/// Whatever is wrong with the result, and where nothing is.
#[test]
fn the_matrix_is_tested_first() {
    let fitting = (Case::heard_at(0).result(), WrongKind);
    for (matrix, with) in wrong_matrices() {
        for (result, _) in wrong_results().iter().chain([&fitting]) {
            refused(&matrix, result, with);
        }
    }
}

#[test]
fn then_the_result_is() {
    for (result, with) in wrong_results() {
        for matrix in [Case::heard_at(0).matrix(), mixed_matrix(), equal_parts(17)] {
            refused(&matrix, &result, with);
        }
    }
}

/// Also where the sums would get yes.
#[test]
fn each_wrong_word_of_r_is_refused() {
    for (i, j) in places().filter(|&(i, j)| i >= j && (i, j) != (SIZE - 1, SIZE - 1)) {
        let mut case = Case::heard_at((i + 1) % 8);
        case.r[i][j] = -1;
        refused(&case.matrix(), &case.result(), NotTriangular);
        if i > j {
            case.r[i][j] = i32::MAX;
            refused(&case.matrix(), &case.result(), NotTriangular);
        }
    }
    let mut last = Case::heard_at(0);
    last.r[SIZE - 1][SIZE - 1] = -1;
    assert_eq!(last.verdict(), Ok(true), "this one may be negative");
}

#[test]
fn no_byte_at_all_is_a_wrong_kind() {
    let case = Case::heard_at(0);
    let (matrix, result) = (case.matrix(), case.result());
    refused(&[], &[], WrongKind);
    refused(&[], &result, WrongKind);
    refused(&matrix, &[], WrongKind);
    let none = ptr::null();
    // SAFETY: a pointer may be null where its length is 0; the others are those of vectors.
    let verdicts = unsafe {
        [
            ffi::hubqr_verify(none, 0, none, 0),
            ffi::hubqr_verify(none, 0, result.as_ptr(), result.len()),
            ffi::hubqr_verify(matrix.as_ptr(), matrix.len(), none, 0),
        ]
    };
    assert_eq!(verdicts, [neither(WrongKind); 3]);
    // SAFETY: as above, and a length of 0 has no byte read.
    let no_result = unsafe { ffi::hubqr_verify(equal_parts(16).as_ptr(), 257, none, 0) };
    assert_eq!(no_result, neither(NoneHeard));
}

/// Both are only read, so that they may stand in the same memory.
#[test]
fn records_may_overlap() {
    let matrix = mixed_matrix();
    refused(&matrix, &matrix, WrongKind);
    let mut memory = [0; RESULT_RECORD_BYTES + 1];
    memory[0] = KIND_MATRIX;
    memory[1] = KIND_RESULT; // element (0, 0) is 512, and R begins behind this byte
    let both = (&memory[..MATRIX_RECORD_BYTES], &memory[1..]);
    assert_eq!(hubqr::verify(both.0, both.1), Ok(false));
    memory[2 + 4 * SIZE] = 1;
    let both = (&memory[..MATRIX_RECORD_BYTES], &memory[1..]);
    assert_eq!(hubqr::verify(both.0, both.1), Err(NotTriangular));
}
