//! Result records that contenders are compared on.

use hubqr::{AREA_WORDS, KIND_RESULT, RESULT_RECORD_BYTES};
use reference::matrix::{Matrix, REAL_SIZE};
use reference::random::Random;
use reference::records::write_matrix;

use crate::contenders::ENGINE;

/// Words at the ends of the range and around 0.
const ENDS: [i32; 5] = [i32::MIN, -1, 0, 1, i32::MAX];

/// The result record of a matrix.
pub fn worked(matrix: &Matrix) -> Vec<u8> {
    let mut result = [0; RESULT_RECORD_BYTES];
    (ENGINE.whole)(&write_matrix(matrix), &mut [0; AREA_WORDS], &mut result);
    result.to_vec()
}

/// A record of arbitrary words, row by row those of R and then those of Q transposed, with R as the
/// tests want it. No matrix leads to it, but calls have to take it.
pub fn arbitrary(random: &mut Random) -> Vec<u8> {
    let mut record = vec![KIND_RESULT];
    for place in 0..2 * REAL_SIZE * REAL_SIZE {
        let (i, j) = (place / REAL_SIZE, place % REAL_SIZE);
        let any = match random.one_in(4) {
            true => random.choose(&ENDS),
            false => random.word(),
        };
        let word = if j < i && i < REAL_SIZE {
            0
        } else if i == j && i < REAL_SIZE - 1 {
            any.saturating_abs().max(1)
        } else if i == j && any == 0 {
            -1
        } else {
            any
        };
        record.extend(word.to_be_bytes());
    }
    record
}

/// Other kinds and lengths, and this record with one word of R or two changed. Most are refused: the
/// last diagonal word may be negative, and not all calls refuse a diagonal word of 0.
pub fn damaged(record: &[u8]) -> Vec<Vec<u8>> {
    let mut damaged = vec![vec![], vec![KIND_RESULT], [record, &[0]].concat()];
    damaged.push(record[..RESULT_RECORD_BYTES - 1].to_vec());
    for kind in [0, 1, 3, u8::MAX] {
        damaged.push([&[kind], &record[1..]].concat());
        damaged.push(vec![kind]);
    }
    for i in 0..REAL_SIZE {
        for word in [0, -1, i32::MIN] {
            damaged.push(with_word(record, REAL_SIZE * i + i, word));
        }
        for j in 0..i {
            let under = with_word(record, REAL_SIZE * i + j, 1);
            damaged.push(with_word(&under, 0, 0));
            damaged.push(under);
        }
    }
    damaged
}

/// A record with this word in a place: those of R row by row, then those of Q transposed.
pub fn with_word(record: &[u8], place: usize, word: i32) -> Vec<u8> {
    let mut record = record.to_vec();
    record[1 + 4 * place..][..4].copy_from_slice(&word.to_be_bytes());
    record
}

/// The word in a place of a record.
pub fn word_at(record: &[u8], place: usize) -> i32 {
    let bytes = record[1 + 4 * place..][..4].try_into();
    i32::from_be_bytes(bytes.expect("four bytes are a word"))
}
