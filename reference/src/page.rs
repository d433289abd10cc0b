//! What the program `page` makes of its input: R of a result record as a page for the fitter.

mod sample;

pub use sample::{extreme_words, PageSample};

use std::iter;

use crate::area::WorkArea;
use crate::calls::test_triangle;
use crate::matrix::REAL_SIZE;
use crate::records::parse_result;
use crate::replies::Refusal;

/// Bytes that the program reads: one more than a result record has.
pub const PAGE_READ_LIMIT: usize = 2_050;

/// Columns that a number is right-aligned in.
const NUMBER_COLUMNS: usize = 12;

/// The page or the line with a refusal's number that answers an input.
pub fn page(input: &[u8]) -> Vec<u8> {
    let record = &input[..input.len().min(PAGE_READ_LIMIT)];
    match finished(record) {
        Ok(area) => {
            let lines = (0..REAL_SIZE).map(|i| line((0..REAL_SIZE).map(|j| area.r(i, j))));
            lines.flatten().collect()
        }
        Err(refusal) => line([refusal.number().into()]),
    }
}

/// The area of a result record that is finished: tests 1, 2 and 8.
fn finished(record: &[u8]) -> Result<WorkArea, Refusal> {
    let area = parse_result(record)?;
    test_triangle(&area)?;
    Ok(area)
}

fn line(words: impl IntoIterator<Item = i32>) -> Vec<u8> {
    let mut line: Vec<u8> = words.into_iter().flat_map(right_aligned).collect();
    line.push(b'\n');
    line
}

/// A word in its columns, which are filled from the right: a digit for each power of ten up to the
/// word's size, or one for 0, and then the sign. These are eleven characters at most.
fn right_aligned(word: i32) -> [u8; NUMBER_COLUMNS] {
    // In 64 bits the lowest word has a size, too.
    let size = i64::from(word).abs();
    let powers = iter::successors(Some(1), |power| Some(10 * power));
    let powers = powers.take_while(|&power| power <= size.max(1));
    let digits = powers.map(|power| b'0' + (size / power % 10) as u8);
    let sign = (word < 0).then_some(b'-');
    let mut columns = [b' '; NUMBER_COLUMNS];
    for (column, character) in columns.iter_mut().rev().zip(digits.chain(sign)) {
        *column = character;
    }
    columns
}

#[cfg(test)]
mod tests {
    use super::*;
    use crate::area::AREA_WORDS;
    use crate::records::write_result;

    fn text(page: &[u8]) -> &str {
        std::str::from_utf8(page).expect("a page is text")
    }

    #[test]
    fn words_are_right_aligned_in_12_columns() {
        for (word, columns) in [
            (0, "           0"),
            (7, "           7"),
            (-1, "          -1"),
            (9_999, "        9999"),
            (-10_000, "      -10000"),
            (i32::MAX, "  2147483647"),
            (i32::MIN, " -2147483648"),
        ] {
            assert_eq!(text(&right_aligned(word)), columns);
        }
    }

    #[test]
    fn a_refusal_is_its_number_in_12_columns() {
        for (input, number) in [
            (vec![], 1),
            (vec![1; 2049], 1),
            (vec![2; 2048], 2),
            (vec![2; 2049], 8),
            (vec![2; 2050], 2),
            (vec![2; 100_000], 2),
            (vec![3; 100_000], 1),
        ] {
            assert_eq!(text(&page(&input)), format!("           {number}\n"));
        }
    }

    #[test]
    fn a_page_has_r_row_by_row() {
        let mut area = WorkArea::from_words(&[0; AREA_WORDS]);
        area.set_word(0, 1, -20);
        area.set_word(2, 15, i32::MIN);
        area.set_word(15, 15, -3);
        // Q is not on the page.
        area.set_word(1, 16, 99);
        let page = page(&write_result(&area));
        let lines: Vec<&str> = text(&page).split_terminator('\n').collect();
        assert_eq!((page.len(), lines.len()), (16 * 193, 16));
        let zero = "           0";
        let zeros = |count| zero.repeat(count);
        let first = [zero, "         -20", &zeros(14)].concat();
        assert_eq!(lines[0], first);
        assert_eq!(lines[1], zeros(16));
        assert_eq!(lines[2], zeros(15) + " -2147483648");
        assert_eq!(lines[15], zeros(15) + "          -3");
    }
}
