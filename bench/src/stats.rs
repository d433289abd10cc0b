//! Medians, which a few disturbed rounds do not move, and how far most rounds lie from them.

/// The middle one, or the mean of the two in the middle. There has to be one.
pub fn median(values: &[f64]) -> f64 {
    let mut sorted = values.to_vec();
    sorted.sort_by(f64::total_cmp);
    let middle = sorted.len() / 2;
    if sorted.len() % 2 == 1 {
        sorted[middle]
    } else {
        (sorted[middle - 1] + sorted[middle]) / 2.0
    }
}

/// The median of the ratios of values from the same round.
pub fn ratio(values: &[f64], base: &[f64]) -> f64 {
    median(&ratios(values, base))
}

/// The two between which nine of ten of these ratios lie: one of twenty is below, one above.
pub fn spread(values: &[f64], base: &[f64]) -> (f64, f64) {
    let mut sorted = ratios(values, base);
    sorted.sort_by(f64::total_cmp);
    let outside = sorted.len() / 20;
    (sorted[outside], sorted[sorted.len() - 1 - outside])
}

fn ratios(values: &[f64], base: &[f64]) -> Vec<f64> {
    values.iter().zip(base).map(|(a, b)| a / b).collect()
}

#[cfg(test)]
mod tests {
    use super::*;

    #[test]
    fn the_median_is_in_the_middle() {
        assert_eq!(median(&[5.0]), 5.0);
        assert_eq!(median(&[9.0, 1.0, 2.0]), 2.0);
        assert_eq!(median(&[9.0, 1.0, 2.0, 4.0]), 3.0);
    }

    #[test]
    fn nine_of_ten_lie_in_the_spread() {
        let values: Vec<f64> = (0..40).map(f64::from).collect();
        assert_eq!(spread(&values, &[1.0; 40]), (2.0, 37.0));
        assert_eq!(spread(&[3.0], &[2.0]), (1.5, 1.5));
    }

    #[test]
    fn ratios_are_taken_round_by_round() {
        assert_eq!(ratio(&[2.0, 6.0, 100.0], &[4.0, 12.0, 1.0]), 0.5);
    }
}
