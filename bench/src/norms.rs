//! Which rotations leave the 32-bit path: those with a column whose squares add up to more than the
//! bound that holds for every loaded matrix.

use reference::random::Random;
use reference::schedule::{self, Turn};

use crate::contenders::{Area, ENGINE, LOADED};
use crate::inputs;

const AREAS: usize = 50;
const COLUMNS: usize = 32;
const BOUND: u64 = (1 << 60) + (1 << 44);

/// Of 120 rotations, how many leave the 32-bit path on average: first of loaded matrices, then of
/// arbitrary words.
pub fn rotations_outside(seed: u64) -> (f64, f64) {
    let mut random = Random::new(seed);
    let (mut loaded, mut arbitrary) = (0, 0);
    for _ in 0..AREAS {
        let mut area = [0; hubqr::AREA_WORDS];
        (ENGINE.load)(&inputs::record(&mut random), &mut area);
        loaded += count_outside(area);
        arbitrary += count_outside(inputs::words(&mut random));
    }
    let mean = |count: usize| count as f64 / AREAS as f64;
    (mean(loaded), mean(arbitrary))
}

fn count_outside(mut area: Area) -> usize {
    let (mut job, mut count) = (LOADED, 0);
    for turn in schedule::turns() {
        count += usize::from(is_outside(&area, turn));
        (job, _) = (ENGINE.run)(job, 1, &mut area);
    }
    count
}

fn is_outside(area: &Area, turn: Turn) -> bool {
    let square = |row: usize, column: usize| {
        let word = i64::from(area[COLUMNS * row + column]);
        (word * word) as u64
    };
    (turn.column..COLUMNS).any(|k| square(turn.upper, k) + square(turn.lower, k) > BOUND)
}
