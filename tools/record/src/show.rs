//! `record show`: a record for people.
use std::ffi::OsStr;

use hubqr::Refusal;

use crate::factors::{Factors, Words, SIZE};
use crate::failure::Failure;
use crate::figures::fixed;
use crate::matrix::{Element, Matrix};
use crate::records::Record;
use crate::refusal::refused_with;
use crate::{files, Report};

pub fn show(file: &OsStr) -> Result<Report, Failure> {
    match Record::read(file)? {
        Record::Matrix(matrix) => Ok(Report::text(matrix_text(&matrix), !matrix.none_heard())),
        Record::Result(factors) => {
            let in_order = factors.rule_breaks().first().is_none();
            Ok(Report::text(result_text(&factors), in_order))
        }
        Record::Refusal(number) => match Refusal::try_from(number) {
            Ok(refusal) => {
                let text = format!("refusal record, number {number}: {refusal}\n");
                Ok(Report::text(text, true))
            }
            Err(_) => {
                let message = format!("a refusal record of number {number}, which is none");
                Err(files::named(file, message))
            }
        },
    }
}

/// Which antennas a heard byte names and which it does not, in words.
pub fn antennas(heard: u8) -> String {
    let with_bit = |set: bool| {
        let chosen = (0..8).filter(|k| (heard >> k & 1 == 1) == set);
        let names: Vec<String> = chosen.map(|k: u8| k.to_string()).collect();
        if names.is_empty() {
            "none".to_string()
        } else {
            names.join(" ")
        }
    };
    let (heard_list, others) = (with_bit(true), with_bit(false));
    format!("heard antennas: {heard_list} (heard byte {heard:02X}), not heard: {others}")
}

/// Everything but the elements stands behind '#', so that the text can be packed again. Eight
/// elements of five digits would not fit into a line of 100 columns, so a row has two lines.
fn matrix_text(matrix: &Matrix) -> String {
    let mut text = format!(
        "# matrix record: 8 by 8 elements in units of 1/32768, a column for each antenna\n# {}\n",
        antennas(matrix.heard())
    );
    if matrix.none_heard() {
        text += &format!("# {}\n", refused_with(Refusal::NoneHeard));
    }
    for (i, row) in matrix.rows.iter().enumerate() {
        let elements = row.map(element_text);
        let (left, right) = elements.split_at(elements.len() / 2);
        text += &format!("{}  \\  # row {i}, antennas 0 to 3\n", left.concat());
        text += &format!("{}     # row {i}, antennas 4 to 7\n", right.concat());
    }
    text
}

/// An element. Its parts meet in the same column of every line.
pub fn element_text(element: Element) -> String {
    let imaginary = format!("{:+}i", element.imaginary);
    format!("{:>8}{imaginary:<7}", element.real)
}

fn result_text(factors: &Factors) -> String {
    let verdict = match factors.rule_breaks().first() {
        None => "R is upper triangular and its first 15 diagonal words are not negative".into(),
        Some(place) => {
            let why = refused_with(Refusal::NotTriangular);
            format!("{}: {why}", factors.word_of_r(place))
        }
    };
    let r = words_text(
        "R in steps of the 16-bit input (word / 2^13)",
        &factors.r,
        13,
        2,
    );
    let q = words_text("Q in parts of one (word / 2^30)", &factors.q, 30, 5);
    format!("result record: {verdict}\n{r}{q}")
}

/// Columns that stand beside each other: as many words of R as fit into 100 columns of text.
const BESIDE: usize = 8;

/// A matrix as decimals of words / 2^`shift`, in blocks of eight columns under the name.
fn words_text(name: &str, words: &Words, shift: u32, decimals: usize) -> String {
    let cells = words.map(|row| row.map(|word| decimal(word, shift, decimals)));
    let width = cells.iter().flatten().map(String::len).max().unwrap_or(0) + 1;
    let aligned = |cell: &String| format!("{cell:>width$}");
    let mut text = String::new();
    for first in (0..SIZE).step_by(BESIDE) {
        let columns = first..first + BESIDE;
        let (start, end) = (columns.start, columns.end - 1);
        let numbers = columns.clone().map(|j| aligned(&j.to_string()));
        let heading = numbers.collect::<String>();
        text += &format!("\n{name}, columns {start} to {end}\n   {heading}\n");
        for (i, row) in cells.iter().enumerate() {
            let row: String = row[columns.clone()].iter().map(aligned).collect();
            text += &format!("{i:>3}{row}\n");
        }
    }
    text
}

/// A word that is 0 is a bare 0, so that it differs from one that only rounds to 0.
fn decimal(word: i32, shift: u32, decimals: usize) -> String {
    if word == 0 {
        return "0".to_string();
    }
    fixed(f64::from(word) / f64::from(1 << shift), decimals)
}
