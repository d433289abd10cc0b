//! The covariance of snapshots: their products added up, and the matrix record written of the sums.
//!
//! The sums are a grid of complex numbers in 128 bits, which nothing here outgrows. The three calls
//! are [`Sums::NONE`], [`add`] and [`write`]; as elsewhere, 0 is the number of an accepted call.

use crate::matrix::{Complex, Matrix, ANTENNAS};
use crate::records::{write_matrix, MATRIX_RECORD};
use crate::replies::Refusal;

/// At most so many snapshots are added up.
pub const MOST_SNAPSHOTS: u32 = 4_096;

/// Words in which sums are handed over: two for each element.
pub const SUM_WORDS: usize = 2 * ANTENNAS * ANTENNAS;

/// One sample of each antenna, all taken at the same time.
pub type Snapshot = [Complex; ANTENNAS];

/// A complex whole number that is exact.
#[derive(Debug, Clone, Copy, Default, PartialEq, Eq)]
pub struct Exact {
    pub re: i128,
    pub im: i128,
}

impl Exact {
    pub const ZERO: Exact = Exact { re: 0, im: 0 };

    pub fn conjugate(self) -> Self {
        Exact {
            re: self.re,
            im: -self.im,
        }
    }

    fn plus(self, other: Exact) -> Self {
        Exact {
            re: self.re + other.re,
            im: self.im + other.im,
        }
    }

    fn times(self, other: Exact) -> Self {
        Exact {
            re: self.re * other.re - self.im * other.im,
            im: self.re * other.im + self.im * other.re,
        }
    }
}

impl From<Complex> for Exact {
    fn from(sample: Complex) -> Self {
        Exact {
            re: sample.re.into(),
            im: sample.im.into(),
        }
    }
}

/// How many snapshots were added, and for each element the sum of their products.
#[derive(Debug, Clone, PartialEq, Eq)]
pub struct Sums {
    count: u32,
    grid: [[Exact; ANTENNAS]; ANTENNAS],
}

/// What adding answers: the new sums, or those of a refused call as they were.
#[derive(Debug, Clone, PartialEq, Eq)]
pub struct AddReply {
    pub number: u8,
    pub sums: Sums,
}

impl Sums {
    /// The sums of no snapshot.
    pub const NONE: Sums = Sums {
        count: 0,
        grid: [[Exact::ZERO; ANTENNAS]; ANTENNAS],
    };

    /// Sums that are handed in: the words stand in the order of the matrix record.
    pub fn from_words(count: u32, words: &[i64; SUM_WORDS]) -> Self {
        let mut sums = Sums {
            count,
            ..Sums::NONE
        };
        for (k, parts) in words.chunks_exact(2).enumerate() {
            sums.grid[k / ANTENNAS][k % ANTENNAS] = Exact {
                re: parts[0].into(),
                im: parts[1].into(),
            };
        }
        sums
    }

    /// The sums as words in the order of the matrix record.
    pub fn to_words(&self) -> [i64; SUM_WORDS] {
        let mut words = [0; SUM_WORDS];
        for (parts, sum) in words.chunks_exact_mut(2).zip(self.grid.iter().flatten()) {
            let word = |part: i128| i64::try_from(part).expect("sums within their range fit");
            (parts[0], parts[1]) = (word(sum.re), word(sum.im));
        }
        words
    }

    /// How many snapshots were added.
    pub fn count(&self) -> u32 {
        self.count
    }

    /// The sum of element (i, j).
    pub fn sum(&self, i: usize, j: usize) -> Exact {
        self.grid[i][j]
    }

    /// Whether a part of a sum lies further from 0 than 2^31 times the count.
    fn lie_beyond(&self) -> bool {
        let furthest = (1 << 31) * i128::from(self.count);
        let beyond = |part: i128| part > furthest || part < -furthest;
        let mut sums = self.grid.iter().flatten();
        sums.any(|sum| beyond(sum.re) || beyond(sum.im))
    }

    /// The matrix of the sums, which are of at least one snapshot and within their range.
    pub fn matrix(&self) -> Matrix {
        let divisor = 65_536 * i128::from(self.count);
        Matrix::from_fn(|i, j| {
            let sum = self.sum(i, j);
            Complex::new(divide(sum.re, divisor), divide(sum.im, divisor))
        })
    }
}

/// Divides toward zero and clamps at 32,767. The sign is taken off first and put back after.
fn divide(part: i128, divisor: i128) -> i16 {
    let size = part.abs() / divisor;
    let quotient = if part < 0 { -size } else { size };
    i16::try_from(quotient.min(32_767)).expect("no sum is below -2^31 times the count")
}

/// Adds a snapshot: sample i times the conjugate of sample j to the sum of element (i, j).
pub fn add(snapshot: &Snapshot, sums: &Sums) -> AddReply {
    match accept_add(snapshot, sums) {
        Ok(sums) => AddReply { number: 0, sums },
        Err(refusal) => AddReply {
            number: refusal.number(),
            sums: sums.clone(),
        },
    }
}

/// Writes the matrix record of the sums to the first 257 bytes of the buffer.
pub fn write(sums: &Sums, buffer: &mut [u8]) -> u8 {
    match accept_write(sums, buffer) {
        Ok(()) => 0,
        Err(refusal) => refusal.number(),
    }
}

fn accept_add(snapshot: &Snapshot, sums: &Sums) -> Result<Sums, Refusal> {
    if sums.count >= MOST_SNAPSHOTS || sums.lie_beyond() {
        return Err(Refusal::Sums);
    }
    let samples = snapshot.map(Exact::from);
    let mut added = sums.clone();
    added.count += 1;
    for (row, sample) in added.grid.iter_mut().zip(samples) {
        for (sum, other) in row.iter_mut().zip(samples) {
            *sum = sum.plus(sample.times(other.conjugate()));
        }
    }
    Ok(added)
}

fn accept_write(sums: &Sums, buffer: &mut [u8]) -> Result<(), Refusal> {
    if sums.count > MOST_SNAPSHOTS || sums.lie_beyond() {
        return Err(Refusal::Sums);
    }
    if sums.count == 0 {
        return Err(Refusal::NoSnapshot);
    }
    let buffer: &mut [u8; MATRIX_RECORD] = buffer.first_chunk_mut().ok_or(Refusal::Buffer)?;
    *buffer = write_matrix(&sums.matrix());
    Ok(())
}

#[cfg(test)]
mod tests {
    use super::*;
    use crate::random::Random;

    const LOWEST: Snapshot = [Complex::new(-32768, -32768); ANTENNAS];

    fn added_up(snapshots: &[Snapshot]) -> Sums {
        snapshots.iter().fold(Sums::NONE, |sums, snapshot| {
            let reply = add(snapshot, &sums);
            assert_eq!(reply.number, 0);
            reply.sums
        })
    }

    /// Sums with a word of their own in one place, and 0 elsewhere.
    fn one_word(count: u32, place: usize, word: i64) -> Sums {
        let mut words = [0; SUM_WORDS];
        words[place] = word;
        Sums::from_words(count, &words)
    }

    #[test]
    fn a_sample_is_multiplied_by_the_conjugate_of_another() {
        let mut snapshot = [Complex::ZERO; ANTENNAS];
        (snapshot[2], snapshot[5]) = (Complex::new(3, 4), Complex::new(1, -2));
        let sums = added_up(&[snapshot]);
        assert_eq!(sums.sum(2, 5), Exact { re: -5, im: 10 });
        assert_eq!(sums.sum(5, 2), Exact { re: -5, im: -10 });
        assert_eq!(sums.sum(2, 2), Exact { re: 25, im: 0 });
        assert_eq!(sums.sum(5, 5), Exact { re: 5, im: 0 });
        assert_eq!(sums.sum(2, 3), Exact::ZERO);
    }

    #[test]
    fn words_stand_in_the_order_of_the_record() {
        let words: [i64; SUM_WORDS] = std::array::from_fn(|k| k as i64 - 50);
        let sums = Sums::from_words(7, &words);
        for i in 0..ANTENNAS {
            for j in 0..ANTENNAS {
                let re = 2 * (8 * i + j) as i128 - 50;
                assert_eq!(sums.sum(i, j), Exact { re, im: re + 1 });
            }
        }
        assert_eq!((sums.count(), sums.to_words()), (7, words));
    }

    /// Element (i, j) by the formula of the specification, over the list as a whole.
    fn element(list: &[Snapshot], i: usize, j: usize) -> Complex {
        let (mut re, mut im) = (0, 0);
        for snapshot in list {
            let [a, b] = [snapshot[i].re, snapshot[i].im].map(i64::from);
            let [c, d] = [snapshot[j].re, snapshot[j].im].map(i64::from);
            re += a * c + b * d;
            im += b * c - a * d;
        }
        let divisor = 65_536 * list.len() as i64;
        let part = |sum: i64| (sum / divisor).min(32_767) as i16;
        Complex::new(part(re), part(im))
    }

    #[test]
    fn the_record_of_a_list_is_that_of_the_formula() {
        let mut random = Random::new(8);
        for count in [1, 2, 3, 100] {
            let mut sample = || Complex::new(random.part(), random.part());
            let mut snapshot = || std::array::from_fn(|_| sample());
            let list: Vec<Snapshot> = (0..count).map(|_| snapshot()).collect();
            let mut buffer = [0; MATRIX_RECORD];
            assert_eq!(write(&added_up(&list), &mut buffer), 0);
            let expected = Matrix::from_fn(|i, j| element(&list, i, j));
            assert_eq!(buffer, write_matrix(&expected));
        }
    }

    #[test]
    fn division_is_toward_zero_and_clamps_from_above_alone() {
        let tenth = |part| divide(part, 10);
        assert_eq!([-11, -10, -9, -1, 0, 1].map(tenth), [-1, -1, 0, 0, 0, 0]);
        assert_eq!([9, 10, 11, 19, 20].map(tenth), [0, 1, 1, 1, 2]);
        assert_eq!([327_679, 327_680].map(tenth), [32_767, 32_767]);
        assert_eq!([-327_679, -327_680].map(tenth), [-32_767, -32_768]);
    }

    #[test]
    fn the_strongest_snapshots_reach_the_furthest_sums_and_are_clamped() {
        let sums = added_up(&[LOWEST; 4_096]);
        let furthest = Exact { re: 1 << 43, im: 0 };
        assert!(sums.grid.iter().flatten().all(|&sum| sum == furthest));
        let clamped = Matrix::from_fn(|_, _| Complex::new(32_767, 0));
        assert_eq!(sums.matrix(), clamped);
    }

    #[test]
    fn adding_makes_its_tests_and_gives_back_what_it_refuses() {
        for (count, place, word, number) in [
            (0, 0, 0, 0),
            (0, 127, 1, 10),
            (0, 64, -1, 10),
            (1, 3, 1 << 31, 0),
            (1, 3, (1 << 31) + 1, 10),
            (4_095, 90, -4_095 << 31, 0),
            (4_095, 90, (-4_095 << 31) - 1, 10),
            (4_096, 0, 0, 10),
            (u32::MAX, 0, i64::MIN, 10),
        ] {
            let sums = one_word(count, place, word);
            let reply = add(&LOWEST, &sums);
            assert_eq!(reply.number, number, "{count}, {word}");
            assert_eq!(reply.sums == sums, number != 0, "{count}, {word}");
        }
    }

    #[test]
    fn writing_makes_its_tests_in_order() {
        let mut buffer = [0xEE; MATRIX_RECORD + 3];
        for (count, word, bytes, number) in [
            (4_097, 0, 257, 10),
            (0, 1, 256, 10),
            (0, 0, 256, 9),
            (1, 0, 256, 7),
            (4_096, (4_096 << 31) + 1, 257, 10),
        ] {
            let sums = one_word(count, 77, word);
            assert_eq!(write(&sums, &mut buffer[..bytes]), number);
        }
        assert_eq!(buffer, [0xEE; MATRIX_RECORD + 3]);
        assert_eq!(write(&one_word(4_096, 77, 4_096 << 31), &mut buffer), 0);
        assert_eq!(buffer[..2], [1, 0]);
        assert_eq!(buffer[1 + 2 * 77..][..2], [0x7F, 0xFF]);
        assert_eq!(buffer[MATRIX_RECORD..], [0xEE; 3]);
    }
}
