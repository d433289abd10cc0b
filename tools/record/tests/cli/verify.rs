//! Yes is status 0, no is 1, and whatever is neither is 2.
use hubqr::{Refusal, KIND_MATRIX, KIND_RESULT, RESULT_RECORD_BYTES};

use crate::tool::{
    add_to_word, diagonal_result, matrix_record, uniform_record, worked, Folder, Outcome, NO, YES,
};

fn verify(folder: &Folder, matrix: &[u8], result: &[u8]) -> Outcome {
    folder.write("m.bin", matrix);
    folder.write("r.bin", result);
    folder.run(&["verify", "m.bin", "r.bin"])
}

fn assert_says(outcome: &Outcome, verdict: &str, status: i32) {
    assert_eq!(outcome.text(), format!("{verdict}\n"));
    assert_eq!((outcome.status, outcome.stderr.as_str()), (status, ""));
}

/// Status 2, with nothing but this message.
fn assert_neither(outcome: &Outcome, message: &str) {
    assert_eq!(outcome.stderr, format!("record: {message}\n"));
    assert_eq!((outcome.status, outcome.text()), (2, ""));
}

/// A matrix, and factors of it without any error.
fn exact() -> (Vec<u8>, Vec<u8>) {
    (
        matrix_record(20, (0, 0)),
        diagonal_result(20 << 13, 1 << 30),
    )
}

/// The exact result with these added to words of R and of Q transposed.
fn changed(changes: &[(usize, i32)]) -> Vec<u8> {
    let (_, mut result) = exact();
    for &(place, summand) in changes {
        add_to_word(&mut result, place, summand);
    }
    result
}

#[test]
fn what_the_engine_makes_gets_yes() {
    let folder = Folder::new("verify-engine");
    for matrix in [
        matrix_record(17, (0, -1)),
        matrix_record(32767, (-32768, -32768)),
        uniform_record((32767, -32768)),
    ] {
        let outcome = verify(&folder, &matrix, &worked(&matrix));
        assert_says(&outcome, YES, 0);
        let other = worked(&matrix_record(12345, (-777, 32767)));
        assert_says(&verify(&folder, &matrix, &other), NO, 1);
    }
}

/// In a word of R and in a word of Q.
#[test]
fn the_limits_are_met_exactly() {
    let folder = Folder::new("verify-exact");
    let (matrix, _) = exact();
    for (place, summand, verdict, status) in [
        (3 * 17, 1 << 14, YES, 0),
        (3 * 17, (1 << 14) + 1, NO, 1),
        (3 * 17, -(1 << 14), YES, 0),
        (3 * 17, -(1 << 14) - 1, NO, 1),
        (256 + 1, 1 << 14, YES, 0),
        (256 + 1, (1 << 14) + 1, NO, 1),
        (256 + 1, -(1 << 14), YES, 0),
        (256 + 1, -(1 << 14) - 1, NO, 1),
    ] {
        let outcome = verify(&folder, &matrix, &changed(&[(place, summand)]));
        assert_says(&outcome, verdict, status);
    }
}

/// The columns of R do not count, which `record check` shows.
#[test]
fn the_columns_of_r_do_not_count() {
    let folder = Folder::new("verify-columns");
    let matrix = uniform_record((32767, 32767));
    let mut result = worked(&matrix);
    add_to_word(&mut result, 0, 1 << 14);
    assert_says(&verify(&folder, &matrix, &result), YES, 0);
}

/// Matrix records that are refused, by which number, and what is said to be wrong in them.
fn wrong_matrices() -> Vec<(Vec<u8>, u8, &'static str)> {
    let (matrix, result) = exact();
    let kind = "the kind byte is 02, a matrix record begins with 01: ";
    let refusal = "the kind byte is 03, a matrix record begins with 01: ";
    let short = "a matrix record has 257 bytes, this one 256: ";
    let byte = "a matrix record has 257 bytes, this one 1: ";
    let more = "a matrix record has 257 bytes, this one 258: ";
    let long = "a matrix record has 257 bytes, this one more than 2049: ";
    vec![
        (vec![], 1, "empty: "),
        (result, 1, kind),
        (vec![KIND_RESULT], 1, kind),
        (vec![3, 4], 1, refusal),
        (matrix[..256].to_vec(), 2, short),
        (vec![KIND_MATRIX], 2, byte),
        ([&matrix[..], &[0]].concat(), 2, more),
        (vec![KIND_MATRIX; 1 << 20], 2, long),
        (matrix_record(16, (32767, 32767)), 4, ""),
        (uniform_record((0, 0)), 4, ""),
    ]
}

/// The same of result records.
fn wrong_results() -> Vec<(Vec<u8>, u8, &'static str)> {
    let (matrix, result) = exact();
    let kind = "the kind byte is 01, a result record begins with 02: ";
    let refusal = "the kind byte is 03, a result record begins with 02: ";
    let short = "a result record has 2049 bytes, this one 2048: ";
    let long = "a result record has 2049 bytes, this one more than 2049: ";
    vec![
        (vec![], 1, "empty: "),
        (matrix, 1, kind),
        (vec![KIND_MATRIX; RESULT_RECORD_BYTES], 1, kind),
        (vec![3, 4], 1, refusal),
        (result[..2048].to_vec(), 2, short),
        ([&result[..], &[0]].concat(), 2, long),
        (vec![KIND_RESULT; 1 << 20], 2, long),
        (changed(&[(16, 5)]), 8, "word (1, 0) of R is 5: "),
        (changed(&[(254, -2)]), 8, "word (15, 14) of R is -2: "),
        (
            changed(&[(14 * 17, -20 << 13), (14 * 17, -1)]),
            8,
            "word (14, 14) of R is -1: ",
        ),
    ]
}

/// What is said of a record that is refused.
fn refused(file: &str, what: &str, number: u8) -> String {
    let refusal = Refusal::try_from(number).unwrap();
    format!("{file}: {what}the engine refuses it with number {number}: {refusal}")
}

/// Whatever the result is.
#[test]
fn a_refused_matrix_is_said_with_its_number() {
    let folder = Folder::new("verify-matrix");
    let results = [exact().1, vec![], changed(&[(16, 5)])];
    for (matrix, number, what) in wrong_matrices() {
        for result in &results {
            let outcome = verify(&folder, &matrix, result);
            assert_neither(&outcome, &refused("m.bin", what, number));
        }
    }
}

#[test]
fn a_refused_result_is_said_with_its_number() {
    let folder = Folder::new("verify-result");
    for (result, number, what) in wrong_results() {
        let outcome = verify(&folder, &exact().0, &result);
        assert_neither(&outcome, &refused("r.bin", what, number));
    }
    let negative = verify(&folder, &exact().0, &changed(&[(255, -20 << 14)]));
    assert_says(&negative, NO, 1);
}

#[test]
fn a_file_that_cannot_be_read_gets_neither() {
    let folder = Folder::new("verify-unread");
    let (matrix, result) = exact();
    folder.write("m.bin", matrix);
    folder.write("r.bin", result);
    folder.make_folder("folder");
    let absent = "absent.bin: No such file or directory (os error 2)";
    let is_folder = "folder: Is a directory (os error 21)";
    for (name, message) in [("absent.bin", absent), ("folder", is_folder)] {
        for files in [["m.bin", name], [name, "r.bin"]] {
            let outcome = folder.run(&["verify", files[0], files[1]]);
            assert_neither(&outcome, message);
        }
    }
}

#[test]
fn one_record_may_come_from_standard_input() {
    let folder = Folder::new("verify-standard");
    let (matrix, result) = exact();
    folder.write("m.bin", &matrix);
    folder.write("r.bin", &result);
    let outcome = folder.run_with_input(&["verify", "-", "r.bin"], &matrix);
    assert_says(&outcome, YES, 0);
    let outcome = folder.run_with_input(&["verify", "m.bin", "-"], &result);
    assert_says(&outcome, YES, 0);
    let outcome = folder.run_with_input(&["verify", "-", "r.bin"], &[]);
    assert_neither(&outcome, &refused("standard input", "empty: ", 1));
    let message = "only one of the two files can come from standard input\nTry 'record --help'.";
    let outcome = folder.run_with_input(&["verify", "-", "-"], &matrix);
    assert_neither(&outcome, message);
}
