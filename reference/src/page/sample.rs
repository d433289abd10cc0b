//! The sample inputs of the program `page`, which `examples/results` stores.

use crate::area::{WorkArea, AREA_WORDS};
use crate::matrix::REAL_SIZE;
use crate::program::respond;
use crate::random::Random;
use crate::records::{parse_result, write_result, MATRIX_RECORD, RESULT_RECORD};

/// The record of the sample matrix: a usual one, which `qr` accepts.
const MATRIX: &[u8; MATRIX_RECORD] = include_bytes!("../../../examples/records/hermitian.bin");

#[derive(Debug, Clone, Copy, PartialEq, Eq)]
pub enum PageSample {
    /// The result of the sample matrix.
    Hermitian,
    /// Extreme words wherever a finished R may have them.
    Extremes,
    /// A result record of zeros.
    Zeros,
    /// No byte at all.
    Empty,
    /// The sample matrix itself, which is no result.
    Matrix,
    /// The result without its last byte.
    Short,
    /// The result and one byte behind it.
    Long,
    /// The result with a 1 in the last word under the diagonal.
    UnderDiagonal,
    /// The result with a -1 in the last diagonal word that may not be negative.
    NegativeDiagonal,
}

impl PageSample {
    pub const ALL: [PageSample; 9] = [
        PageSample::Hermitian,
        PageSample::Extremes,
        PageSample::Zeros,
        PageSample::Empty,
        PageSample::Matrix,
        PageSample::Short,
        PageSample::Long,
        PageSample::UnderDiagonal,
        PageSample::NegativeDiagonal,
    ];

    /// The name of its files.
    pub fn name(self) -> &'static str {
        match self {
            PageSample::Hermitian => "hermitian",
            PageSample::Extremes => "extremes",
            PageSample::Zeros => "zeros",
            PageSample::Empty => "empty",
            PageSample::Matrix => "matrix",
            PageSample::Short => "short",
            PageSample::Long => "long",
            PageSample::UnderDiagonal => "under-diagonal",
            PageSample::NegativeDiagonal => "negative-diagonal",
        }
    }

    /// The input.
    pub fn bytes(self) -> Vec<u8> {
        let result = respond(MATRIX);
        match self {
            PageSample::Hermitian => result,
            PageSample::Extremes => extremes(),
            PageSample::Zeros => write_result(&WorkArea::from_words(&[0; AREA_WORDS])).to_vec(),
            PageSample::Empty => Vec::new(),
            PageSample::Matrix => MATRIX.to_vec(),
            PageSample::Short => result[..RESULT_RECORD - 1].to_vec(),
            PageSample::Long => [result, vec![0]].concat(),
            PageSample::UnderDiagonal => with_word(&result, (REAL_SIZE - 1, REAL_SIZE - 2), 1),
            PageSample::NegativeDiagonal => with_word(&result, (REAL_SIZE - 2, REAL_SIZE - 2), -1),
        }
    }
}

/// The smallest and the largest word of each number of digits, with either sign, in rising order:
/// powers of ten and one less, and the ends of the range.
pub fn extreme_words() -> Vec<i32> {
    let powers = (0..10).map(|digits| 10_i32.pow(digits));
    let sizes = powers.flat_map(|power| [power - 1, power]);
    let mut words: Vec<i32> = sizes.flat_map(|size| [-size, size]).collect();
    words.extend([i32::MIN, i32::MAX]);
    words.sort();
    words.dedup();
    words
}

/// Above the diagonal each extreme word in turn, on it the largest ones falling, and the lowest one
/// of all at its end. Q is of arbitrary words.
fn extremes() -> Vec<u8> {
    let words = extreme_words();
    let mut random = Random::new(601);
    let mut area = WorkArea::from_words(&[0; AREA_WORDS].map(|_: i32| random.word()));
    let mut above = words.iter().cycle();
    let mut falling = words.iter().rev();
    for i in 0..REAL_SIZE {
        (0..i).for_each(|j| area.set_word(i, j, 0));
        let largest = *falling.next().expect("there are 21 that are not negative");
        area.set_word(i, i, largest);
        for j in i + 1..REAL_SIZE {
            area.set_word(i, j, *above.next().expect("they never end"));
        }
    }
    area.set_word(REAL_SIZE - 1, REAL_SIZE - 1, i32::MIN);
    write_result(&area).to_vec()
}

fn with_word(result: &[u8], (i, j): (usize, usize), word: i32) -> Vec<u8> {
    let mut area = parse_result(result).expect("it is a result record");
    area.set_word(i, j, word);
    write_result(&area).to_vec()
}

#[cfg(test)]
mod tests {
    use super::*;
    use crate::page::page;

    #[test]
    fn the_samples_are_accepted_or_refused_as_they_say() {
        for sample in PageSample::ALL {
            let number = match sample {
                PageSample::Hermitian | PageSample::Extremes | PageSample::Zeros => 0,
                PageSample::Empty | PageSample::Matrix => 1,
                PageSample::Short | PageSample::Long => 2,
                PageSample::UnderDiagonal | PageSample::NegativeDiagonal => 8,
            };
            let page = page(&sample.bytes());
            if number == 0 {
                assert_eq!(page.len(), 3_088, "{sample:?}");
            } else {
                assert_eq!(page, format!("{number:>12}\n").into_bytes(), "{sample:?}");
            }
        }
    }

    #[test]
    fn extreme_words_are_the_smallest_and_the_largest_of_each_number_of_digits() {
        let words = extreme_words();
        let (first, last) = (words[0], words[words.len() - 1]);
        assert_eq!((first, last), (-2_147_483_648, 2_147_483_647));
        let between = &words[1..words.len() - 1];
        let mirrored: Vec<i32> = between.iter().rev().map(|word| -word).collect();
        assert_eq!(between, mirrored);
        let from_zero = &words[words.len() / 2..];
        assert_eq!(from_zero[..8], [0, 1, 9, 10, 99, 100, 999, 1_000]);
        assert_eq!(from_zero[18..], [999_999_999, 1_000_000_000, i32::MAX]);
    }

    #[test]
    fn every_extreme_word_stands_in_the_sample() {
        let area = parse_result(&PageSample::Extremes.bytes()).unwrap();
        let above = (0..REAL_SIZE).flat_map(|i| (i + 1..REAL_SIZE).map(move |j| (i, j)));
        let above: Vec<i32> = above.map(|(i, j)| area.r(i, j)).collect();
        assert!(extreme_words().iter().all(|word| above.contains(word)));
        assert_eq!(area.r(15, 15), i32::MIN);
    }
}
