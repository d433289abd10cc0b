//! Complex numbers as people, numpy and Matlab write them: `-123+45i` in whole units, `0.5-0.25i`,
//! `(5e-01-2.5e-01j)` or `(0.5 - 0.25i)` in parts of one.
use crate::decimal::{Decimal, Style};

/// A part in units of 1/32768, and how and where in its token it was written.
#[derive(Clone, Copy, Debug, PartialEq)]
pub struct Part {
    pub units: i16,
    pub style: Option<Style>,
    pub offset: usize,
}

/// What is wrong with a token, and at which character of it, from 0.
#[derive(Debug, PartialEq)]
pub struct Fault {
    pub offset: usize,
    pub message: String,
}

const ABSENT: Part = Part {
    units: 0,
    style: None,
    offset: 0,
};

/// What has to follow a number.
const BEHIND: &str = "a blank or a comma behind the number";

/// More than the digits of any text that is read, so that a power of ten beyond it needs no figures.
const MOST_EXPONENT: i64 = 1 << 40;

/// The real and the imaginary part of a token. Blanks stand in it only within brackets.
pub fn parse(token: &str) -> Result<[Part; 2], Fault> {
    if matches!(token, "+" | "-") {
        return Err(Fault {
            offset: 0,
            message: "a sign alone: a number with blanks needs brackets, as in (1 + 2i)".into(),
        });
    }
    let mut cursor = Cursor::new(token);
    let first = cursor.part()?;
    let parts = if cursor.at_end() {
        [first, ABSENT]
    } else if cursor.imaginary_unit() {
        [ABSENT, first]
    } else if cursor.peek(&['+', '-']) {
        let second = cursor.part()?;
        if !cursor.imaginary_unit() {
            return Err(cursor.unexpected("'i' behind the imaginary part"));
        }
        [first, second]
    } else {
        return Err(cursor.unexpected("a digit, '+', '-' or 'i'"));
    };
    cursor.end()?;
    Ok(parts)
}

/// A place in a token. `at` counts bytes, and stands behind ASCII characters only.
struct Cursor<'a> {
    token: &'a str,
    at: usize,
    /// Whether the token began with a bracket: blanks then mean nothing, and one has to close it.
    bracketed: bool,
}

impl<'a> Cursor<'a> {
    fn new(token: &'a str) -> Self {
        let bracketed = token.starts_with('(');
        let mut cursor = Cursor {
            token,
            at: usize::from(bracketed),
            bracketed,
        };
        cursor.blanks();
        cursor
    }

    fn rest(&self) -> &'a str {
        &self.token[self.at..]
    }

    /// Whether the number ends here.
    fn at_end(&self) -> bool {
        self.rest().is_empty() || self.bracketed && self.peek(&[')'])
    }

    fn peek(&self, any: &[char]) -> bool {
        self.rest().starts_with(any)
    }

    /// Steps over one of these characters, if one is here.
    fn skip(&mut self, any: &[char]) -> bool {
        let here = self.peek(any);
        self.at += usize::from(here);
        here
    }

    /// Steps over the bytes that are so.
    fn skip_while(&mut self, is_so: impl Fn(u8) -> bool) -> &'a str {
        let rest = self.rest();
        let length = rest.bytes().take_while(|&byte| is_so(byte)).count();
        self.at += length;
        &rest[..length]
    }

    fn blanks(&mut self) {
        if self.bracketed {
            self.skip_while(|byte| byte == b' ' || byte == b'\t');
        }
    }

    fn digits(&mut self) -> &'a str {
        self.skip_while(|byte| byte.is_ascii_digit())
    }

    fn imaginary_unit(&mut self) -> bool {
        let here = self.skip(&['i', 'j']);
        self.blanks();
        here
    }

    /// What has to follow the number, in brackets or not.
    fn end(&mut self) -> Result<(), Fault> {
        if self.bracketed && !self.skip(&[')']) {
            return Err(self.unexpected("')'"));
        }
        if self.rest().is_empty() {
            return Ok(());
        }
        Err(self.unexpected(BEHIND))
    }

    fn unexpected(&self, expected: &str) -> Fault {
        let found = match self.rest().chars().next() {
            Some(character) => format!("'{}'", character.escape_default()),
            None => "the number's end".into(),
        };
        Fault {
            offset: self.at,
            message: format!("{expected} expected, found {found}"),
        }
    }

    /// A sign, if there is one, and a number.
    fn part(&mut self) -> Result<Part, Fault> {
        let offset = self.at;
        let negative = self.peek(&['-']);
        self.skip(&['+', '-']);
        self.blanks();
        let decimal = self.decimal(negative)?;
        let written = &self.token[offset..self.at];
        let units = decimal.units(written);
        self.blanks();
        Ok(Part {
            units: units.map_err(|message| Fault { offset, message })?,
            style: decimal.style(),
            offset,
        })
    }

    /// Digits, and a decimal point with digits or an exponent, if there is one.
    fn decimal(&mut self, negative: bool) -> Result<Decimal<'a>, Fault> {
        let whole = self.digits();
        let decimals = self.skip(&['.']).then(|| self.digits());
        if whole.is_empty() && decimals.is_none_or(str::is_empty) {
            return Err(self.unexpected("a digit"));
        }
        let exponent = self.exponent()?;
        Ok(Decimal {
            negative,
            whole,
            decimals,
            exponent,
        })
    }

    fn exponent(&mut self) -> Result<Option<i64>, Fault> {
        if !self.skip(&['e', 'E']) {
            return Ok(None);
        }
        let negative = self.peek(&['-']);
        self.skip(&['+', '-']);
        let digits = self.digits();
        if digits.is_empty() {
            return Err(self.unexpected("a digit of the exponent"));
        }
        let size = digits
            .parse()
            .map_or(MOST_EXPONENT, |n: i64| n.min(MOST_EXPONENT));
        Ok(Some(if negative { -size } else { size }))
    }
}

#[cfg(test)]
mod tests {
    use super::*;

    fn units(token: &str) -> (i16, i16) {
        let [real, imaginary] = parse(token).unwrap();
        (real.units, imaginary.units)
    }

    fn fault(token: &str) -> (usize, String) {
        let fault = parse(token).unwrap_err();
        (fault.offset, fault.message)
    }

    #[test]
    fn whole_numbers_are_units() {
        assert_eq!(units("-123+45i"), (-123, 45));
        assert_eq!(units("32767-32768i"), (32767, -32768));
        assert_eq!(units("+7"), (7, 0));
        assert_eq!(units("-9j"), (0, -9));
        assert_eq!(units("0"), (0, 0));
        assert_eq!(units("-0j"), (0, 0));
        assert_eq!(units("00012"), (12, 0));
    }

    #[test]
    fn fractions_are_rounded_to_the_nearest_unit() {
        assert_eq!(units("0.5-0.25i"), (16384, -8192));
        assert_eq!(units("-1.0+.5i"), (-32768, 16384));
        assert_eq!(units("0.99998"), (32767, 0));
        assert_eq!(units("0.0000152587890625"), (1, 0), "half a unit");
        assert_eq!(units("-0.0000152587890625"), (-1, 0), "half a unit");
        assert_eq!(units("0.00001525878906249999999"), (0, 0));
        assert_eq!(
            units("0.000015258789062500000000000000000000000000001"),
            (1, 0)
        );
        assert_eq!(units("-1.00001"), (-32768, 0));
        assert_eq!(units("0.9999847412109374"), (32767, 0), "the largest");
        assert_eq!(units("-1.0000152587890624"), (-32768, 0), "the smallest");
        assert_eq!(units("0.-0.i"), (0, 0));
    }

    #[test]
    fn exponents_move_the_point() {
        assert_eq!(units("5e-1-2.5E-01i"), (16384, -8192));
        assert_eq!(units("1e-5"), (0, 0));
        assert_eq!(units("1.0e-04"), (3, 0));
        assert_eq!(units("-1e0+0.05e+1j"), (-32768, 16384));
        assert_eq!(units("500e-3"), (16384, 0));
        assert_eq!(units("1.52587890625e-5"), (1, 0), "half a unit");
        assert_eq!(units("1.52587890624e-5"), (0, 0));
        assert_eq!(units("1e-99999999999999999999"), (0, 0));
        assert_eq!(units("0e99999999999999999999"), (0, 0));
        let long = format!("0.{}5e100000", "0".repeat(100_000));
        assert_eq!(units(&long), (16384, 0));
    }

    #[test]
    fn brackets_may_hold_blanks() {
        assert_eq!(units("(1+2j)"), (1, 2));
        assert_eq!(units("( 1 + 2i )"), (1, 2));
        assert_eq!(units("(- 3\t-4 j)"), (-3, -4));
        assert_eq!(units("(0.5)"), (16384, 0));
        assert_eq!(units("(-0j)"), (0, 0));
        let numpy = "(5.000000000000000000e-01-2.500000000000000000e-01j)";
        assert_eq!(units(numpy), (16384, -8192));
    }

    #[test]
    fn what_does_not_fit_is_named() {
        let whole = "whole numbers are units of 1/32768 and go from -32768 to 32767";
        let fraction = "numbers with a point or an exponent are parts of one and go from -1 to \
                        32767/32768, about 0.99997; divide all numbers of the file by one that \
                        brings them into this range";
        for (token, offset, written, range) in [
            ("32768", 0, "32768", whole),
            ("1-32769i", 1, "-32769", whole),
            ("99999999999999999999", 0, "99999999999999999999", whole),
            ("1.0", 0, "1.0", fraction),
            ("0.9999847412109375", 0, "0.9999847412109375", fraction),
            ("-1.0000152587890625", 0, "-1.0000152587890625", fraction),
            ("0.5+0.99999i", 3, "+0.99999", fraction),
            ("-70000.5", 0, "-70000.5", fraction),
            ("(1.2e+02 - 4.5e+01j)", 1, "1.2e+02", fraction),
            ("1e3", 0, "1e3", fraction),
            (
                "1e99999999999999999999",
                0,
                "1e99999999999999999999",
                fraction,
            ),
        ] {
            let message = format!("{written} is out of range: {range}");
            assert_eq!(fault(token), (offset, message));
        }
    }

    #[test]
    fn what_is_no_number_is_pointed_at() {
        let sign = "a sign alone: a number with blanks needs brackets, as in (1 + 2i)";
        for (token, offset, message) in [
            ("i", 0, "a digit expected, found 'i'"),
            ("1+i", 2, "a digit expected, found 'i'"),
            ("-", 0, sign),
            (".", 1, "a digit expected, found the number's end"),
            ("()", 1, "a digit expected, found ')'"),
            ("1;2", 1, "a digit, '+', '-' or 'i' expected, found ';'"),
            (
                "3\u{2212}4i",
                1,
                "a digit, '+', '-' or 'i' expected, found '\\u{2212}'",
            ),
        ] {
            assert_eq!(fault(token), (offset, message.to_string()), "{token}");
        }
    }

    #[test]
    fn what_is_missing_or_too_much_is_pointed_at() {
        for (token, offset, expected, found) in [
            (
                "1+2",
                3,
                "'i' behind the imaginary part",
                "the number's end",
            ),
            ("1e", 2, "a digit of the exponent", "the number's end"),
            ("1e-i", 3, "a digit of the exponent", "'i'"),
            ("2i3", 2, BEHIND, "'3'"),
            ("1+2i+3", 4, BEHIND, "'+'"),
            ("(1+2i", 5, "')'", "the number's end"),
            ("(1+2i 3", 6, "')'", "'3'"),
            ("(1+2i)3", 6, BEHIND, "'3'"),
            ("1+2i)", 4, BEHIND, "')'"),
        ] {
            let message = format!("{expected} expected, found {found}");
            assert_eq!(fault(token), (offset, message), "{token}");
        }
    }

    #[test]
    fn zero_is_of_neither_style() {
        let style = |token| parse(token).unwrap().map(|part| part.style);
        assert_eq!(style("0.0+0i"), [None, None]);
        assert_eq!(style("0e-5"), [None, None]);
        assert_eq!(style("1+0.1i"), [Some(Style::Whole), Some(Style::Fraction)]);
        assert_eq!(style("0.000001"), [Some(Style::Fraction), None]);
        assert_eq!(style("1e-5"), [Some(Style::Fraction), None]);
    }
}
