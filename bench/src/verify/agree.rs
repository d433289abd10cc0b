//! Before anything is timed: a contender answers what the engine answers, for results that get yes and
//! no, by either kind of sum, at the limits, with sums that pass 64 bits, and where a record is refused.

use hubqr::ffi::Verdict;
use hubqr::{KIND_MATRIX, KIND_RESULT, MATRIX_RECORD_BYTES, Q_ONE};
use reference::area::WorkArea;
use reference::matrix::{Complex, Matrix, REAL_SIZE};
use reference::random::Random;
use reference::records::{write_matrix, write_result};

use super::contenders::{Contender, ENGINE};
use crate::agree::matrices;
use crate::results::{arbitrary, damaged, with_word, word_at, worked};

/// A matrix record and a result record.
type Pair = (Vec<u8>, Vec<u8>);

/// What a word of R or Q may be off, or what is one more, where Q is one.
const NEAR_LIMITS: [i32; 5] = [1 << 14, (1 << 14) + 1, 8191, 8192, 8193];

/// Where a contender first disagrees with the engine, if it does.
pub fn check(who: &Contender, seed: u64) -> Result<(), String> {
    compare(who.verify, seed)
}

fn compare(verify: impl Fn(&[u8], &[u8]) -> Verdict, seed: u64) -> Result<(), String> {
    for (matrix, result) in pairs(&mut Random::new(seed)) {
        if verify(&matrix, &result) != engine(&matrix, &result) {
            return Err(format!("{matrix:?} and {result:?}"));
        }
    }
    Ok(())
}

fn engine(matrix: &[u8], result: &[u8]) -> Verdict {
    (ENGINE.verify)(matrix, result)
}

fn pairs(random: &mut Random) -> Vec<Pair> {
    let mut pairs = Vec::new();
    let mut before = write_matrix(&heard_by(0));
    for matrix in matrices(random) {
        let (record, result) = (write_matrix(&matrix), worked(&matrix));
        let other = std::mem::replace(&mut before, record).to_vec();
        pairs.push((other, result.clone()));
        pairs.push((record.to_vec(), off(&result, random)));
        pairs.push((record.to_vec(), arbitrary(random)));
        pairs.push((record.to_vec(), result));
    }
    pairs.extend(words_at_limits());
    pairs.extend(parts_at_limits());
    pairs.extend((0..8).map(right_modulo_64_bits));
    pairs.extend(refused());
    pairs
}

/// A matrix that has 17 on the diagonal for one antenna and nothing elsewhere.
fn heard_by(antenna: usize) -> Matrix {
    Matrix::from_fn(|_, _| Complex::ZERO).with_diagonal_at(antenna, 17)
}

/// The area of a matrix that is R already, with Q one: there is no error.
fn exact(matrix: &Matrix) -> WorkArea {
    WorkArea::loaded(&matrix.to_real())
}

/// A result with one word off by a power of two, large or small.
fn off(result: &[u8], random: &mut Random) -> Vec<u8> {
    let place = random.below(2 * REAL_SIZE * REAL_SIZE);
    let word = word_at(result, place);
    let off = random.choose(&[1, -1]) << random.below(31);
    with_word(result, place, word.wrapping_add(off))
}

/// Each word of R and Q off by what is near its limit.
fn words_at_limits() -> Vec<Pair> {
    let matrix = Matrix::from_fn(|_, _| Complex::ZERO).with_diagonal(|_| 17);
    let mut pairs = Vec::new();
    for row in 0..REAL_SIZE {
        for column in row..2 * REAL_SIZE {
            for off in NEAR_LIMITS.into_iter().flat_map(|off| [off, -off]) {
                let mut area = exact(&matrix);
                area.set_word(row, column, area.word(row, column) + off);
                pairs.push((write_matrix(&matrix).to_vec(), write_result(&area).to_vec()));
            }
        }
    }
    pairs
}

/// Each part of the matrix off by two steps, which is the limit, or by three.
fn parts_at_limits() -> Vec<Pair> {
    let matrix = Matrix::from_fn(|_, _| Complex::ZERO).with_diagonal(|_| 20);
    let (record, result) = (write_matrix(&matrix), write_result(&exact(&matrix)));
    let mut pairs = Vec::new();
    for at in (1..MATRIX_RECORD_BYTES).step_by(2) {
        for off in [2, -2, 3, -3_i16] {
            let mut other = record.to_vec();
            let part = i16::from_be_bytes([record[at], record[at + 1]]) + off;
            other[at..at + 2].copy_from_slice(&part.to_be_bytes());
            pairs.push((other, result.to_vec()));
        }
    }
    pairs
}

/// In five rows and columns Q has -1 on the diagonal and -2 elsewhere, so that sums of products of its
/// rows are 2^64 too large, of which 64 bits show nothing.
fn right_modulo_64_bits(first: usize) -> Pair {
    let odd = |n: usize| (first + n) % REAL_SIZE;
    let matrix = heard_by((first + 5) % 8);
    let mut area = exact(&matrix);
    for (i, j) in (0..25).map(|place| (place / 5, place % 5)) {
        let word = if i == j { -Q_ONE } else { i32::MIN };
        area.set_word(odd(i), REAL_SIZE + odd(j), word);
    }
    (write_matrix(&matrix).to_vec(), write_result(&area).to_vec())
}

/// Records of wrong kinds, lengths and contents on either side, and on both.
fn refused() -> Vec<Pair> {
    let matrix = heard_by(3);
    let (record, result) = (write_matrix(&matrix), write_result(&exact(&matrix)));
    let hum = write_matrix(&matrix.with_diagonal_at(3, 16));
    let longer = [&record[..], &[0]].concat();
    let other_kind = [&[KIND_RESULT], &record[1..]].concat();
    let short = &record[..MATRIX_RECORD_BYTES - 1];
    let mut results = damaged(&result);
    results.push(result.to_vec());
    let mut pairs = Vec::new();
    for matrix in [
        &record[..],
        &hum,
        &[],
        &[KIND_MATRIX],
        &longer,
        &other_kind,
        short,
    ] {
        for result in &results {
            pairs.push((matrix.to_vec(), result.clone()));
        }
    }
    pairs
}

#[cfg(test)]
mod tests {
    use super::*;
    use reference::accuracy::{largest, product_differences, rows_differences, Differences, BOUND};
    use reference::records::{parse_matrix, parse_result};

    fn agrees(verify: impl Fn(&[u8], &[u8]) -> Verdict) -> bool {
        compare(verify, 1).is_ok()
    }

    /// Whether the engine's verdicts agree with it when yes or no goes by this rule about the
    /// differences for Q times R and for the rows of Q.
    fn agrees_by(rule: impl Fn(Differences, Differences) -> bool) -> bool {
        agrees(|matrix, result| {
            let verdict = engine(matrix, result);
            match (parse_matrix(matrix), parse_result(result)) {
                (Ok(matrix), Ok(area)) if verdict.number == 0 => {
                    let product = product_differences(&matrix.to_real(), &area);
                    let yes = rule(product, rows_differences(&area)).into();
                    Verdict { yes, ..verdict }
                }
                _ => verdict,
            }
        })
    }

    fn within(differences: Differences) -> bool {
        largest(&differences) <= BOUND
    }

    #[test]
    fn all_verdicts_are_compared() {
        let mut counts = [0; 3];
        for (matrix, result) in pairs(&mut Random::new(1)) {
            let Verdict { number, yes } = engine(&matrix, &result);
            counts[if number > 0 { 2 } else { yes.into() }] += 1;
        }
        assert!(counts.iter().all(|&count| count > 500), "{counts:?}");
    }

    #[test]
    fn wrong_sums_are_noticed() {
        let without_last = |mut differences: Differences| {
            differences[REAL_SIZE - 1][REAL_SIZE - 1] = 0;
            differences
        };
        let in_64_bits = |differences: Differences| {
            differences.map(|row| row.map(|difference| i128::from(difference as i64)))
        };
        assert!(agrees_by(|product, rows| within(product) && within(rows)));
        assert!(!agrees_by(|_, _| true));
        assert!(!agrees_by(|_, _| false));
        assert!(!agrees_by(|product, _| within(product)));
        assert!(!agrees_by(|_, rows| within(rows)));
        assert!(!agrees_by(
            |product, rows| largest(&product) < BOUND && within(rows)
        ));
        assert!(!agrees_by(
            |product, rows| within(product) && largest(&rows) < BOUND
        ));
        assert!(!agrees_by(
            |product, rows| within(without_last(product)) && within(rows)
        ));
        assert!(!agrees_by(
            |product, rows| within(product) && within(without_last(rows))
        ));
        assert!(!agrees_by(
            |product, rows| within(product) && within(in_64_bits(rows))
        ));
    }

    #[test]
    fn wrong_refusals_are_noticed() {
        assert!(!agrees(|matrix, result| Verdict {
            number: 0,
            ..engine(matrix, result)
        }));
        assert!(!agrees(|matrix, result| {
            let verdict = engine(matrix, result);
            let yes = u8::from(verdict.number > 0) | verdict.yes;
            Verdict { yes, ..verdict }
        }));
        // The result's tests come first.
        assert!(!agrees(|matrix, result| {
            let heard = write_matrix(&heard_by(0));
            match engine(&heard, result) {
                Verdict { number: 0, .. } => engine(matrix, result),
                refused => refused,
            }
        }));
        // The matrix is not heard before the result's tests.
        assert!(!agrees(|matrix, result| {
            let heard = write_matrix(&heard_by(0));
            match (engine(matrix, result), engine(&heard, result)) {
                (Verdict { number: 4, .. }, refused) if refused.number > 0 => refused,
                (verdict, _) => verdict,
            }
        }));
    }
}
