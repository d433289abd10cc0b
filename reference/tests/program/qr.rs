//! The program `qr`: a result record or a refusal record for each input.

use std::time::Duration;

use reference::cases::{edges, unheard_edges, Kind};
use reference::program::respond;
use reference::random::Random;
use reference::records::write_matrix;

use crate::run::QR;

/// Compares the program with the reference, and answers what both write.
fn compare(input: &[u8]) -> Vec<u8> {
    let written = QR.output_at_once(input);
    assert!(written == respond(input), "input {input:02X?}");
    written
}

fn full_range_record(seed: u64) -> [u8; 257] {
    write_matrix(&Kind::FullRange.matrix(&mut Random::new(seed)))
}

/// So many bytes that begin with a matrix record, or are the start of one.
fn long_input(length: usize) -> Vec<u8> {
    let mut random = Random::new(501);
    let mut input = full_range_record(502).to_vec();
    input.resize_with(length, || random.byte());
    input
}

#[test]
fn an_empty_input() {
    assert_eq!(QR.output_at_once(&[]), [3, 1]);
}

#[test]
fn inputs_of_another_length() {
    for length in [1, 2, 256, 258, 259, 300, 100_000] {
        let mut input = long_input(length);
        assert_eq!(QR.output_at_once(&input), [3, 2], "{length} bytes");
        input[0] = 2;
        assert_eq!(QR.output_at_once(&input), [3, 1], "{length} bytes");
    }
}

#[test]
fn a_matrix_of_zeros() {
    let mut record = [0; 257];
    record[0] = 1;
    assert_eq!(QR.output_at_once(&record), [3, 4]);
}

#[test]
fn matrices_that_no_antenna_is_heard_with() {
    for matrix in unheard_edges() {
        assert_eq!(compare(&write_matrix(&matrix)), [3, 4]);
    }
}

#[test]
fn inputs_of_every_length() {
    let input = long_input(300);
    for length in 0..=300 {
        let written = compare(&input[..length]);
        assert_eq!(written.len(), if length == 257 { 2049 } else { 2 });
    }
}

#[test]
fn matrices_of_every_kind() {
    for kind in Kind::ALL {
        for case in 0..40 {
            let matrix = kind.matrix(&mut Random::for_case(503, case));
            assert_eq!(compare(&write_matrix(&matrix)).len(), 2049);
        }
    }
    for matrix in edges() {
        assert_eq!(compare(&write_matrix(&matrix)).len(), 2049);
    }
}

#[test]
fn an_input_that_arrives_in_pieces() {
    let record = full_range_record(504);
    let whole = respond(&record);
    for size in [1, 2, 3, 64, 128, 255, 256] {
        for pause in [Duration::ZERO, Duration::from_millis(1)] {
            assert!(
                QR.output(record.chunks(size), pause) == whole,
                "by {size} bytes"
            );
        }
    }
}

#[test]
fn a_long_input_that_arrives_in_pieces() {
    let pause = Duration::from_millis(1);
    for length in [258, 300] {
        assert_eq!(QR.output(long_input(length).chunks(1), pause), [3, 2]);
        assert_eq!(QR.output(long_input(length).chunks(257), pause), [3, 2]);
    }
}
