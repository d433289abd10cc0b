//! The text of a matrix: 8 rows of 8 complex numbers.
use crate::entries::Entry;
use crate::matrix::{Element, Matrix, SIZE};
use crate::numbers::{lines, Fault, Line, Numbers};

/// The matrix that a text describes.
pub fn parse(text: &str) -> Result<Matrix, Fault> {
    let mut reader = Reader::default();
    for line in lines(text) {
        reader.read_line(line?)?;
    }
    reader.finish()
}

/// What has been read of a text.
#[derive(Default)]
struct Reader {
    rows: Vec<[Element; SIZE]>,
    /// The row that is being read: a line that ends in '\' leaves it open.
    row: Vec<Element>,
    numbers: Numbers,
    line: usize,
}

impl Reader {
    fn read_line(&mut self, line: Line) -> Result<(), Fault> {
        self.line = line.number;
        let is_blank = line.entries.is_empty() && self.row.is_empty();
        for entry in line.entries {
            self.read_entry(entry)?;
        }
        if line.goes_on || is_blank {
            return Ok(());
        }
        self.end_row(line.end)
    }

    fn read_entry(&mut self, entry: Entry) -> Result<(), Fault> {
        let row = self.rows.len();
        let one_too_many = if row == SIZE {
            Some(format!("a ninth row of numbers, a matrix has {SIZE}"))
        } else if self.row.len() == SIZE {
            Some(format!("a ninth number in row {row}, a row has {SIZE}"))
        } else {
            None
        };
        if let Some(message) = one_too_many {
            return Err(Fault::new(self.line, entry.column, message));
        }
        self.row.push(self.numbers.read(self.line, entry)?);
        Ok(())
    }

    fn end_row(&mut self, column: usize) -> Result<(), Fault> {
        let (row, count) = (self.rows.len(), self.row.len());
        let elements = std::mem::take(&mut self.row);
        let elements = elements.try_into().map_err(|_| {
            let message = format!("row {row} ends after {count} numbers, {SIZE} are needed");
            Fault::new(self.line, column, message)
        })?;
        self.rows.push(elements);
        Ok(())
    }

    fn finish(mut self) -> Result<Matrix, Fault> {
        if !self.row.is_empty() {
            self.end_row(1)?;
        }
        let (count, line) = (self.rows.len(), self.line.max(1));
        let rows = self.rows.try_into().map_err(|_| {
            let message = format!("the text ends after {count} rows of numbers, {SIZE} are needed");
            Fault::new(line, 1, message)
        })?;
        Ok(Matrix { rows })
    }
}

#[cfg(test)]
mod tests {
    use super::*;

    /// Eight rows of eight times `number`, with row 2 replaced.
    fn with_row(number: &str, row: &str) -> String {
        let usual = [number; SIZE].join(" ");
        let mut lines = [usual.as_str(); SIZE];
        lines[2] = row;
        lines.join("\n")
    }

    #[test]
    fn a_row_may_go_on_in_the_next_line() {
        let text = with_row("1", "1 2 3 \\ # row 2\n4,5, \\\n 6 7 8");
        let matrix = parse(&text).unwrap();
        assert_eq!(matrix.rows[2].map(|e| e.real), [1, 2, 3, 4, 5, 6, 7, 8]);
        for (row, expected) in [
            (
                "1 1 1 \\\n1 1 1 1",
                "line 4, column 8: row 2 ends after 7 numbers, 8 are needed",
            ),
            (
                "1 1 1 \\\n\n1 1 1 1 1",
                "line 4, column 1: row 2 ends after 3 numbers, 8 are needed",
            ),
            (
                "1 1 1 \\\n1 1 1 1 1 1",
                "line 4, column 11: a ninth number in row 2, a row has 8",
            ),
        ] {
            assert_eq!(message(&with_row("1", row)), expected);
        }
        let open = "1 1 1 1 1 1 1 1 \n".repeat(7) + "1 1 \\";
        let expected = "line 8, column 1: row 7 ends after 2 numbers, 8 are needed";
        assert_eq!(message(&open), expected);
    }

    #[test]
    fn a_byte_order_mark_is_no_number() {
        let text = with_row("1", "1,1,1,1 , 1, 1 ,1,1");
        assert!(parse(&format!("\u{feff}{text}")).is_ok());
        let later = with_row("1", "\u{feff}1 1 1 1 1 1 1 1");
        let expected = "line 3, column 1: a digit expected, found '\\u{feff}'";
        assert_eq!(message(&later), expected);
    }

    fn message(text: &str) -> String {
        parse(text).unwrap_err().to_string()
    }

    #[test]
    fn rows_and_remarks_are_read() {
        let text = with_row("1-2i", "  3 4 5 6\t7 8 9i 10 # row 2");
        let matrix = parse(&format!("# a remark\n\n{text}\n  # the end\n")).unwrap();
        let [first, .., last] = matrix.rows[2];
        assert_eq!((first.real, last.real), (3, 10));
        assert_eq!(matrix.rows[2][6].imaginary, 9);
        assert_eq!(matrix.rows[7][7].imaginary, -2);
    }

    #[test]
    fn faults_say_where() {
        for (row, expected) in [
            (
                "1 1 1 1 1 1 1",
                "line 3, column 14: row 2 ends after 7 numbers, 8 are needed",
            ),
            (
                "1 1 1 1 1 1 1 1 1",
                "line 3, column 17: a ninth number in row 2, a row has 8",
            ),
            (
                "1 1 \u{e9} 1 1 1 1 1",
                "line 3, column 5: a digit expected, found '\\u{e9}'",
            ),
            (
                "1 1 5+x 1 1 1 1 1",
                "line 3, column 7: a digit expected, found 'x'",
            ),
            (
                "1,1,,1,1,1,1,1",
                "line 3, column 5: a number expected, found ','",
            ),
            (
                "1 1 (1 + 2x) 1 1 1 1 1",
                "line 3, column 11: 'i' behind the imaginary part expected, found 'x'",
            ),
            (
                "1 + 2i 1 1 1 1 1 1 1",
                "line 3, column 3: a sign alone: a number with blanks needs brackets, as in (1 + 2i)",
            ),
        ] {
            assert_eq!(message(&with_row("1", row)), expected);
        }
    }

    #[test]
    fn rows_are_counted() {
        let ended = "the text ends after 0 rows of numbers, 8 are needed";
        assert_eq!(message(""), format!("line 1, column 1: {ended}"));
        assert_eq!(
            message("\n# nothing\n"),
            format!("line 2, column 1: {ended}")
        );
        let nine = with_row("1", "1 1 1 1 1 1 1 1") + "\n\n  1";
        let ninth = "line 10, column 3: a ninth row of numbers, a matrix has 8";
        assert_eq!(message(&nine), ninth);
    }

    #[test]
    fn styles_do_not_mix_but_zero_fits_both() {
        let mixed = with_row("0.5", "0.5 0 0 0.25+1i 0 0 0 0");
        assert_eq!(
            message(&mixed),
            "line 3, column 13: a whole number in a file of decimal fractions (see line 1): \
             write all parts in the same way"
        );
        let mixed = with_row("5", "0.0 -0.5i 0 0 0 0 0 0");
        assert_eq!(
            message(&mixed),
            "line 3, column 5: a decimal fraction in a file of whole numbers (see line 1): \
             write all parts in the same way"
        );
        assert!(parse(&with_row("5", "0.0 0 0 0 0 0 0 0+0.0i")).is_ok());
    }
}
