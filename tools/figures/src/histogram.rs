//! How errors are spread over the octaves of the axis.

use std::ops::Range;

/// The octaves that are drawn: errors from 2^20, since those of R's columns are small where the
/// matrix is, to 2^45, beyond the limit.
pub const OCTAVES: Range<i32> = 20..45;

/// Bins of one octave.
pub const BINS: usize = 8;

/// What share of the fullest bin each bin holds.
pub fn heights(errors: &[i128]) -> Vec<f64> {
    let mut counts = vec![0_u32; OCTAVES.len() * BINS];
    for &error in errors {
        counts[bin(error)] += 1;
    }
    let fullest = counts.iter().copied().max().unwrap_or(0).max(1);
    let share = |count| f64::from(count) / f64::from(fullest);
    counts.into_iter().map(share).collect()
}

/// The bin of an error. One beyond an end of the axis is drawn at that end.
fn bin(error: i128) -> usize {
    let octaves = octave(error) - f64::from(OCTAVES.start);
    let last = OCTAVES.len() * BINS - 1;
    ((octaves * BINS as f64).max(0.0) as usize).min(last)
}

/// The error's logarithm to base 2, and 0 for no error.
pub fn octave(error: i128) -> f64 {
    (error.max(1) as f64).log2()
}

#[cfg(test)]
mod tests {
    use super::*;

    #[test]
    fn errors_fall_into_their_bins() {
        assert_eq!(bin(1 << 20), 0);
        assert_eq!(bin(1 << 36), 16 * BINS);
        assert_eq!(bin((1 << 44) - 1), 24 * BINS - 1);
    }

    #[test]
    fn the_ends_take_what_lies_beyond() {
        assert_eq!(bin(0), 0);
        assert_eq!(bin(1 << 60), 25 * BINS - 1);
    }

    #[test]
    fn the_fullest_bin_has_height_one() {
        let heights = heights(&[1 << 34, 1 << 34, 1 << 40]);
        assert_eq!(heights[14 * BINS], 1.0);
        assert_eq!(heights[20 * BINS], 0.5);
    }
}
