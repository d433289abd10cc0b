//! The times of a run, round by round, and what is read from them.

use reference::random::Random;

use crate::clock;
use crate::stats;

/// The nanoseconds of one contender at one measure, round by round.
struct Series<M> {
    name: &'static str,
    measure: M,
    nanoseconds: Vec<f64>,
}

pub struct Times<M> {
    series: Vec<Series<M>>,
    clock: Vec<f64>,
}

impl<M: Copy + PartialEq> Times<M> {
    fn none() -> Self {
        Times {
            series: Vec::new(),
            clock: Vec::new(),
        }
    }

    /// The times of so many rounds, each with random input of its own, and the clock of the core in
    /// each, if that can be found out.
    pub fn of_rounds(
        rounds: u64,
        seed: u64,
        mut measure: impl FnMut(u64, &mut Random, &mut Self),
    ) -> Self {
        let mut times = Times::none();
        for round in 0..rounds {
            times.clock.extend(clock::cycles_per_nanosecond());
            measure(round, &mut Random::for_case(seed, round), &mut times);
        }
        times
    }

    /// What a call took one contender in this round.
    pub fn note(&mut self, name: &'static str, measure: M, nanoseconds: f64) {
        match self.place(name, measure) {
            Some(place) => self.series[place].nanoseconds.push(nanoseconds),
            None => self.series.push(Series {
                name,
                measure,
                nanoseconds: vec![nanoseconds],
            }),
        }
    }

    /// Everyone who was timed at a measure, in the order of the first round.
    pub fn names(&self, measure: M) -> Vec<&'static str> {
        let timed = self.series.iter().filter(|s| s.measure == measure);
        timed.map(|series| series.name).collect()
    }

    /// Nanoseconds of a call, if this one was timed at it.
    pub fn nanoseconds(&self, name: &str, measure: M) -> Option<f64> {
        self.of(name, measure).map(stats::median)
    }

    /// How long a call takes where the other's takes 1, if both were timed at it.
    pub fn ratio(&self, name: &str, other: &str, measure: M) -> Option<f64> {
        let times = self.of(name, measure)?;
        self.of(other, measure)
            .map(|base| stats::ratio(times, base))
    }

    /// Between which ratios to the other nine of ten rounds lie, if both were timed at it.
    pub fn spread(&self, name: &str, other: &str, measure: M) -> Option<(f64, f64)> {
        let times = self.of(name, measure)?;
        self.of(other, measure)
            .map(|base| stats::spread(times, base))
    }

    /// Cycles of the core in a nanosecond, if they are known.
    pub fn cycles_per_nanosecond(&self) -> Option<f64> {
        (!self.clock.is_empty()).then(|| stats::median(&self.clock))
    }

    fn of(&self, name: &str, measure: M) -> Option<&[f64]> {
        let place = self.place(name, measure)?;
        Some(&self.series[place].nanoseconds)
    }

    fn place(&self, name: &str, measure: M) -> Option<usize> {
        let mut series = self.series.iter();
        series.position(|series| series.name == name && series.measure == measure)
    }
}

/// The order of a round. Another one comes first each time, so that nobody always follows the same
/// one.
pub fn in_turn<T>(mut all: Vec<T>, round: u64) -> Vec<T> {
    let first = round as usize % all.len();
    all.rotate_left(first);
    all
}

#[cfg(test)]
mod tests {
    use super::*;

    #[test]
    fn times_are_kept_by_name_and_measure() {
        let mut times = Times::none();
        for (name, measure, nanoseconds) in [
            ("engine", 'a', 6.0),
            ("C", 'a', 2.0),
            ("C", 'b', 50.0),
            ("C", 'a', 4.0),
            ("engine", 'a', 4.0),
        ] {
            times.note(name, measure, nanoseconds);
        }
        assert_eq!(times.names('a'), ["engine", "C"]);
        assert_eq!(times.nanoseconds("C", 'a'), Some(3.0));
        assert_eq!(times.ratio("engine", "C", 'a'), Some(2.0));
        assert_eq!(times.spread("engine", "C", 'a'), Some((1.0, 3.0)));
        assert_eq!(times.ratio("engine", "C", 'b'), None);
    }

    #[test]
    fn each_round_another_one_begins() {
        assert_eq!(in_turn(vec![1, 2, 3], 0), [1, 2, 3]);
        assert_eq!(in_turn(vec![1, 2, 3], 4), [2, 3, 1]);
    }
}
