//! The text of targets: eight complex numbers, however they are divided into lines.
use crate::matrix::{Element, SIZE};
use crate::numbers::{lines, Fault, Numbers};

/// What the matrix times the weights is to be, that of row k at place k, in units of 1/32768.
pub type Targets = [Element; SIZE];

/// The targets that a text lists.
pub fn parse(text: &str) -> Result<Targets, Fault> {
    let (mut numbers, mut targets) = (Numbers::default(), Vec::new());
    let mut last_line = 1;
    for line in lines(text) {
        let line = line?;
        last_line = line.number;
        for entry in line.entries {
            if targets.len() == SIZE {
                let message = format!("a ninth number, there are {SIZE} targets");
                return Err(Fault::new(last_line, entry.column, message));
            }
            targets.push(numbers.read(last_line, entry)?);
        }
    }
    let count = targets.len();
    targets.try_into().map_err(|_| {
        let message = format!("the text ends after {count} numbers, {SIZE} are needed");
        Fault::new(last_line, 1, message)
    })
}

#[cfg(test)]
mod tests {
    use super::*;

    /// Targets with these real parts, and as imaginary parts their negatives.
    fn targets(real: [i16; SIZE]) -> Targets {
        real.map(|real| Element {
            real,
            imaginary: -real,
        })
    }

    #[test]
    fn lines_may_be_divided_in_any_way() {
        let expected = targets([1, 2, 3, 4, 5, 6, 7, 8]);
        for text in [
            "1-1i 2-2i 3-3i 4-4i 5-5i 6-6i 7-7i 8-8i",
            "1-1i,2-2i,3-3i,4-4i,5-5i,6-6i,7-7i,8-8i,\n",
            "\u{feff}# eight\n\n1-1i\n2-2i\n(3 - 3j)\n4-4i # half of them\n5-5i\r\n6-6i\n7-7i\n8-8i\n\n",
            "1-1i 2-2i 3-3i 4-4i \\ # antennas 0 to 3\n5-5i 6-6i 7-7i 8-8i",
        ] {
            assert_eq!(parse(text), Ok(expected), "{text}");
        }
        let halves = "0.5-0.5i -0.5+5e-1i 0 0.0 0 0 0 -0.99997+0.99997i";
        let expected = targets([16384, -16384, 0, 0, 0, 0, 0, -32767]);
        assert_eq!(parse(halves), Ok(expected));
    }

    #[test]
    fn faults_say_where() {
        let seven = "1 2 3 4\n5 6 7";
        for (text, expected) in [
            (
                seven.to_string(),
                "line 2, column 1: the text ends after 7 numbers, 8 are needed",
            ),
            (
                "".into(),
                "line 1, column 1: the text ends after 0 numbers, 8 are needed",
            ),
            (
                "# nothing\n\n".into(),
                "line 2, column 1: the text ends after 0 numbers, 8 are needed",
            ),
            (
                format!("{seven} 8 9\n"),
                "line 2, column 9: a ninth number, there are 8 targets",
            ),
            (
                format!("{seven} 8\n\n  x"),
                "line 4, column 3: a ninth number, there are 8 targets",
            ),
            (
                format!("{seven} 8i8"),
                "line 2, column 9: a blank or a comma behind the number expected, found '8'",
            ),
            (
                format!("{seven}, ,"),
                "line 2, column 8: a number expected, found ','",
            ),
        ] {
            assert_eq!(parse(&text).unwrap_err().to_string(), expected);
        }
    }

    #[test]
    fn styles_do_not_mix() {
        let mixed = "0.5 0\n0.25-1i 0 0 0 0 0";
        assert_eq!(
            parse(mixed).unwrap_err().to_string(),
            "line 2, column 5: a whole number in a file of decimal fractions (see line 1): \
             write all parts in the same way"
        );
    }
}
