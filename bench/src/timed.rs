//! Timing the inputs of a batch.

use std::time::Instant;

/// Nanoseconds of the work on an input on average. The first one is for warming up and is not timed.
pub fn mean<I>(inputs: &[I], mut work: impl FnMut(&I)) -> f64 {
    let (warm_up, timed) = inputs.split_first().expect("one is for warming up");
    work(warm_up);
    let start = Instant::now();
    for input in timed {
        work(input);
    }
    start.elapsed().as_nanos() as f64 / timed.len() as f64
}

#[cfg(test)]
mod tests {
    use super::*;

    #[test]
    fn work_is_done_on_every_input_once() {
        let mut done = Vec::new();
        mean(&[3, 1, 2], |&input| done.push(input));
        assert_eq!(done, [3, 1, 2]);
    }
}
