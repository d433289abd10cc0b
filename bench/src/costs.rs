//! How many of the 120 rotations are made, which are those that find something to clear.

use reference::random::Random;

use crate::contenders::{Record, ENGINE, LOADED};
use crate::inputs;

const MATRICES: usize = 50;

/// Of 120 rotations, how many are made on average: of full matrices, of half-empty ones and of the
/// diagonal.
pub fn rotations_made(seed: u64) -> [f64; 3] {
    let mut random = Random::new(seed);
    let mut sums = [0; 3];
    for _ in 0..MATRICES {
        sums[0] += made(&inputs::record(&mut random));
        sums[1] += made(&inputs::half_empty(&mut random));
        sums[2] += made(&inputs::diagonal());
    }
    sums.map(|sum| f64::from(sum) / MATRICES as f64)
}

fn made(record: &Record) -> u32 {
    let mut area = [0; hubqr::AREA_WORDS];
    (ENGINE.load)(record, &mut area);
    let (job, _) = (ENGINE.run)(LOADED, u16::MAX, &mut area);
    job.made
}
