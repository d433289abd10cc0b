//! Complex numbers in the lines of a text, with remarks behind '#': what the texts of a matrix and of
//! targets have in common.
use std::fmt::{self, Display, Formatter};

use crate::complex::{self, Part};
use crate::decimal::Style;
use crate::entries::{entries, Entry};
use crate::matrix::Element;

/// What is wrong with a text, and where. Lines and columns count from 1, as editors count them.
#[derive(Debug, PartialEq)]
pub struct Fault {
    line: usize,
    column: usize,
    message: String,
}

impl Fault {
    pub fn new(line: usize, column: usize, message: String) -> Fault {
        Fault {
            line,
            column,
            message,
        }
    }
}

impl Display for Fault {
    fn fmt(&self, f: &mut Formatter<'_>) -> fmt::Result {
        let Fault {
            line,
            column,
            message,
        } = self;
        write!(f, "line {line}, column {column}: {message}")
    }
}

/// What a line holds before its remark.
pub struct Line<'a> {
    /// Which line it is, from 1.
    pub number: usize,
    pub entries: Vec<Entry<'a>>,
    /// The column behind them.
    pub end: usize,
    /// Whether it ends in '\'.
    pub goes_on: bool,
}

/// The lines of a text. Some editors begin it with a byte-order mark.
pub fn lines(text: &str) -> impl Iterator<Item = Result<Line<'_>, Fault>> {
    let text = text.strip_prefix('\u{feff}').unwrap_or(text);
    let numbered = text.lines().zip(1..);
    numbered.map(|(line, number)| Line::parse(line, number))
}

impl Line<'_> {
    fn parse(line: &str, number: usize) -> Result<Line<'_>, Fault> {
        let numbers = line.split('#').next().unwrap_or_default().trim_end();
        let (numbers, goes_on) = match numbers.strip_suffix('\\') {
            Some(numbers) => (numbers, true),
            None => (numbers, false),
        };
        let entries = entries(numbers).map_err(|column| {
            let message = "a number expected, found ','".to_string();
            Fault::new(number, column, message)
        })?;
        Ok(Line {
            number,
            entries,
            end: numbers.chars().count() + 1,
            goes_on,
        })
    }
}

/// Reads the numbers of a file. They have one style: a 1 between fractions would be taken for one by
/// its writer and is 1/32768.
#[derive(Default)]
pub struct Numbers {
    /// The style that the first one shows, and its line.
    first: Option<(Style, usize)>,
}

impl Numbers {
    /// The number that an entry of a line is.
    pub fn read(&mut self, line: usize, entry: Entry) -> Result<Element, Fault> {
        let Entry { column, token } = entry;
        let parts = complex::parse(token)
            .map_err(|wrong| Fault::new(line, column + wrong.offset, wrong.message))?;
        for part in parts {
            self.agree(part, line, column)?;
        }
        let [real, imaginary] = parts.map(|part| part.units);
        Ok(Element { real, imaginary })
    }

    fn agree(&mut self, part: Part, line: usize, column: usize) -> Result<(), Fault> {
        let Some(style) = part.style else {
            return Ok(());
        };
        let (first, first_line) = *self.first.get_or_insert((style, line));
        if style == first {
            return Ok(());
        }
        let message = match style {
            Style::Whole => format!(
                "a whole number in a file of decimal fractions (see line {first_line}): \
                 write all parts in the same way"
            ),
            Style::Fraction => format!(
                "a decimal fraction in a file of whole numbers (see line {first_line}): \
                 write all parts in the same way"
            ),
        };
        Err(Fault::new(line, column + part.offset, message))
    }
}
