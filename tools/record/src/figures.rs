//! Numbers as they are printed.

/// A number with so many decimals. What rounds to 0 has no sign.
pub fn fixed(value: f64, decimals: usize) -> String {
    let text = format!("{value:.decimals$}");
    let rounds_to_zero = !text.bytes().any(|byte| (b'1'..=b'9').contains(&byte));
    match text.strip_prefix('-') {
        Some(unsigned) if rounds_to_zero => unsigned.to_string(),
        _ => text,
    }
}

/// The powers of ten of the first digit between which a number is printed without an exponent.
const PLAIN: std::ops::RangeInclusive<i32> = -4..=5;

/// A number in nine significant digits. Zero has none, and keeps its sign.
pub fn nine_digits(value: f64) -> String {
    if value == 0.0 {
        return format!("{value:.1}");
    }
    let with_exponent = format!("{value:.8e}");
    let exponent = with_exponent.split_once('e').map(|(_, digits)| digits);
    let exponent = exponent.and_then(|digits| digits.parse().ok());
    match exponent.filter(|exponent| PLAIN.contains(exponent)) {
        Some(exponent) => format!("{value:.*}", (8 - exponent) as usize),
        None => with_exponent,
    }
}

#[cfg(test)]
mod tests {
    use super::*;

    #[test]
    fn what_rounds_to_zero_has_no_sign() {
        assert_eq!(fixed(-0.004, 2), "0.00");
        assert_eq!(fixed(-0.006, 2), "-0.01");
        assert_eq!(fixed(-0.0, 4), "0.0000");
        assert_eq!(fixed(-180.0, 1), "-180.0");
    }

    #[test]
    fn nine_digits_are_significant() {
        for (value, expected) in [
            (1.0, "1.00000000"),
            (-1.0 / 3.0, "-0.333333333"),
            (0.000123456789123, "0.000123456789"),
            (0.000099999999999, "0.000100000000"),
            (0.0000999999999, "9.99999999e-5"),
            (999999.9994, "999999.999"),
            (999999.9996, "1.00000000e6"),
            (9.9999999999, "10.0000000"),
            (-123456789.0, "-1.23456789e8"),
            (-2.0_f64.powi(786), "-4.06983303e236"),
            (2.0_f64.powi(-850), "1.33199835e-256"),
            (0.0, "0.0"),
            (-0.0, "-0.0"),
        ] {
            assert_eq!(nine_digits(value), expected);
        }
    }
}
