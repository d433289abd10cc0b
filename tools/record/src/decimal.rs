//! A real number as people and programs write it, in units of 1/32768.

/// How a number is written. Zero reads the same in both ways and counts as neither.
#[derive(Clone, Copy, Debug, PartialEq)]
pub enum Style {
    Whole,
    Fraction,
}

/// The pieces of a number's text.
#[derive(Clone, Copy)]
pub struct Decimal<'a> {
    pub negative: bool,
    /// The digits before the point.
    pub whole: &'a str,
    /// The digits behind the point, if there is one.
    pub decimals: Option<&'a str>,
    /// The power of ten behind `e`, if there is one.
    pub exponent: Option<i64>,
}

impl Decimal<'_> {
    /// A number with a point or an exponent is a fraction, one without is whole.
    pub fn style(&self) -> Option<Style> {
        let mut digits = self
            .whole
            .bytes()
            .chain(self.decimals.unwrap_or("").bytes());
        match self.is_whole() {
            _ if digits.all(|digit| digit == b'0') => None,
            true => Some(Style::Whole),
            false => Some(Style::Fraction),
        }
    }

    /// The units nearest to the number, or why they are none of 16 bits.
    pub fn units(&self, written: &str) -> Result<i16, String> {
        let size = if self.is_whole() {
            self.whole.parse().ok()
        } else {
            self.fraction()
        };
        let signed = size.map(|units: i32| if self.negative { -units } else { units });
        let units = signed.and_then(|units| i16::try_from(units).ok());
        units.ok_or_else(|| self.out_of_range(written))
    }

    fn is_whole(&self) -> bool {
        self.decimals.is_none() && self.exponent.is_none()
    }

    /// The units nearest to a fraction without its sign, halves away from zero. None where the
    /// fraction is 10 or more.
    fn fraction(&self) -> Option<i32> {
        let all = [self.whole, self.decimals.unwrap_or("")].concat();
        let digits = all.trim_start_matches('0');
        let skipped = all.len() - digits.len();
        // The number is 0.DIGITS times ten to this power, and the first digit is not 0.
        let power = self.whole.len() as i64 + self.exponent.unwrap_or(0) - skipped as i64;
        if digits.is_empty() || power < -16 {
            return Some(0);
        }
        let zeros = usize::try_from(1 - power).ok()?;
        // Halves of a unit are multiples of 2^-16 and have 16 decimals: further ones cannot change
        // the rounding. One digit more stands before the point.
        let digits = (0..zeros).map(|_| b'0').chain(digits.bytes());
        let digits = digits.chain(std::iter::repeat(b'0')).take(17);
        let numerator = digits.fold(0, |sum, digit| 10 * sum + u128::from(digit - b'0'));
        let denominator = 10_u128.pow(16);
        let units = (numerator * 65536 + denominator) / (2 * denominator);
        i32::try_from(units).ok()
    }

    fn out_of_range(&self, written: &str) -> String {
        if self.is_whole() {
            return format!(
                "{written} is out of range: whole numbers are units of 1/32768 and go from -32768 \
                 to 32767"
            );
        }
        format!(
            "{written} is out of range: numbers with a point or an exponent are parts of one and go \
             from -1 to 32767/32768, about 0.99997; divide all numbers of the file by one that \
             brings them into this range"
        )
    }
}
