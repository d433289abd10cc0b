//! Matrix records and result records: numbers in two's complement, high byte first.

use crate::area::{WorkArea, AREA_WORDS, ROWS};
use crate::matrix::{Complex, Matrix, ANTENNAS, REAL_SIZE};
use crate::replies::Refusal;

/// Bytes of a matrix record: the kind byte and 64 elements of 4 bytes.
pub const MATRIX_RECORD: usize = 1 + 4 * ANTENNAS * ANTENNAS;

/// Bytes of a result record: the kind byte and 512 words of 4 bytes.
pub const RESULT_RECORD: usize = 1 + 4 * AREA_WORDS;

/// The kind byte of a matrix record.
pub const MATRIX_KIND: u8 = 1;

/// The kind byte of a result record.
pub const RESULT_KIND: u8 = 2;

/// Parses a matrix record: tests 1 and 2.
pub fn parse_matrix(record: &[u8]) -> Result<Matrix, Refusal> {
    let body = body(record, MATRIX_KIND, MATRIX_RECORD)?;
    Ok(matrix_of(body))
}

/// The matrix whose elements follow a kind byte, which may be any.
pub fn matrix_behind_kind(record: &[u8; MATRIX_RECORD]) -> Matrix {
    matrix_of(&record[1..])
}

fn matrix_of(body: &[u8]) -> Matrix {
    let part = |at: usize| i16::from_be_bytes([body[at], body[at + 1]]);
    Matrix::from_fn(|i, j| {
        let at = 4 * (ANTENNAS * i + j);
        Complex::new(part(at), part(at + 2))
    })
}

/// Writes a matrix record.
pub fn write_matrix(matrix: &Matrix) -> [u8; MATRIX_RECORD] {
    let mut record = [MATRIX_KIND; MATRIX_RECORD];
    for (k, bytes) in record[1..].chunks_exact_mut(4).enumerate() {
        let element = matrix.element(k / ANTENNAS, k % ANTENNAS);
        bytes[..2].copy_from_slice(&element.re.to_be_bytes());
        bytes[2..].copy_from_slice(&element.im.to_be_bytes());
    }
    record
}

/// Parses a result record into an area: tests 1 and 2. R and Q transposed may be anything.
pub fn parse_result(record: &[u8]) -> Result<WorkArea, Refusal> {
    let body = body(record, RESULT_KIND, RESULT_RECORD)?;
    let mut area = WorkArea::from_words(&[0; AREA_WORDS]);
    for (bytes, (row, column)) in body.chunks_exact(4).zip(result_order()) {
        let word = i32::from_be_bytes([bytes[0], bytes[1], bytes[2], bytes[3]]);
        area.set_word(row, column, word);
    }
    Ok(area)
}

/// Writes the result record of the R and Q that an area holds.
pub fn write_result(area: &WorkArea) -> [u8; RESULT_RECORD] {
    let mut record = [RESULT_KIND; RESULT_RECORD];
    for (bytes, (row, column)) in record[1..].chunks_exact_mut(4).zip(result_order()) {
        bytes.copy_from_slice(&area.word(row, column).to_be_bytes());
    }
    record
}

/// The rows and columns of the area in the order of a result record: R, then Q transposed.
fn result_order() -> impl Iterator<Item = (usize, usize)> {
    let halves = [0, REAL_SIZE];
    halves.into_iter().flat_map(|first| {
        (0..ROWS).flat_map(move |row| (first..first + REAL_SIZE).map(move |column| (row, column)))
    })
}

/// What follows the kind byte, if the kind and the length are right. The kind is tested first.
fn body(record: &[u8], kind: u8, length: usize) -> Result<&[u8], Refusal> {
    match record.split_first() {
        Some((&first, body)) if first == kind => {
            if record.len() == length {
                Ok(body)
            } else {
                Err(Refusal::Length)
            }
        }
        _ => Err(Refusal::Kind),
    }
}

#[cfg(test)]
mod tests {
    use super::*;

    #[test]
    fn records_have_the_specified_lengths() {
        assert_eq!(MATRIX_RECORD, 257);
        assert_eq!(RESULT_RECORD, 2049);
    }

    #[test]
    fn a_matrix_record_is_row_by_row_with_the_high_byte_first() {
        let mut record = [0; MATRIX_RECORD];
        record[0] = 1;
        record[1 + 4 * (8 * 2 + 5)..][..4].copy_from_slice(&[0x12, 0x34, 0xFF, 0xFE]);
        let matrix = parse_matrix(&record).unwrap();
        assert_eq!(matrix.element(2, 5), Complex::new(0x1234, -2));
        assert_eq!(write_matrix(&matrix), record);
    }

    #[test]
    fn a_result_record_has_r_first_and_then_q_transposed() {
        let words: [i32; AREA_WORDS] = std::array::from_fn(|k| k as i32 - 100);
        let area = WorkArea::from_words(&words);
        let record = write_result(&area);
        let word = |k: usize| i32::from_be_bytes(record[1 + 4 * k..][..4].try_into().unwrap());
        assert_eq!(record[0], 2);
        assert_eq!(word(0), area.r(0, 0));
        assert_eq!(word(16 * 3 + 7), area.r(3, 7));
        assert_eq!(word(256 + 16 * 3 + 7), area.q(7, 3));
        assert_eq!(parse_result(&record), Ok(area));
    }

    #[test]
    fn the_kind_byte_is_tested_before_the_length() {
        assert_eq!(parse_matrix(&[]), Err(Refusal::Kind));
        assert_eq!(parse_matrix(&[2; 256]), Err(Refusal::Kind));
        assert_eq!(parse_matrix(&[1; 256]), Err(Refusal::Length));
        assert_eq!(parse_matrix(&[1; 258]), Err(Refusal::Length));
        assert_eq!(parse_result(&[1; 2049]), Err(Refusal::Kind));
        assert_eq!(parse_result(&[2; 257]), Err(Refusal::Length));
    }
}
