//! What is timed, and on what.

use std::hint::black_box;
use std::time::Instant;

use hubqr::ffi::{Snapshot, Sums};
use hubqr::{Covariance, MATRIX_RECORD_BYTES, SNAPSHOTS_MAX};
use reference::random::Random;

use super::implementations::{Adding, Engine};
use crate::contenders::ACCEPTED;
use crate::{inputs, timed};

/// Snapshots that are timed together: enough for the clock to be exact, and so few that most batches
/// are over before another program takes the core.
pub const SNAPSHOTS: usize = 512;

/// Batches that make a whole matrix. Each adds on where the one before ends, so that the counts go
/// through all values.
const BATCHES: usize = SNAPSHOTS_MAX as usize / SNAPSHOTS;

/// Of the sums that these snapshots lead to, so many are written, evenly apart.
pub const WRITTEN: usize = 16;

#[derive(Clone, Copy, PartialEq, Eq)]
pub enum Measure {
    /// Adding a snapshot.
    Add,
    /// Writing the matrix record.
    Write,
}

impl Measure {
    pub const ALL: [Measure; 2] = [Measure::Add, Measure::Write];
}

/// Fresh snapshots, the sums that they are added to, and sums that they lead to.
pub struct Batch {
    before: Sums,
    /// The first is for warming up and is not timed, here and in `reached`.
    snapshots: Vec<Snapshot>,
    reached: Vec<Sums>,
}

impl Batch {
    pub fn fresh(round: u64, random: &mut Random) -> Batch {
        let mut sums = Covariance::new();
        for _ in 0..SNAPSHOTS * (round as usize % BATCHES) {
            add(&inputs::snapshot(random), &mut sums);
        }
        let before = Engine.given(&sums);
        let snapshots: Vec<Snapshot> = (0..=SNAPSHOTS).map(|_| inputs::snapshot(random)).collect();
        let mut reached = Vec::new();
        for (k, snapshot) in snapshots[1..].iter().enumerate() {
            add(snapshot, &mut sums);
            if k == 0 || (k + 1) % (SNAPSHOTS / WRITTEN) == 0 {
                reached.push(Engine.given(&sums));
            }
        }
        Batch {
            before,
            snapshots,
            reached,
        }
    }

    /// Nanoseconds of adding a snapshot on average.
    pub fn time_adding<A: Adding>(&self, who: &A) -> f64 {
        let (warm_up, timed) = self.snapshots.split_first().expect("one is for warming up");
        let mut number = who.add(warm_up, &mut who.taken(&self.before));
        let mut sums = who.taken(&self.before);
        let start = Instant::now();
        for snapshot in timed {
            number |= who.add(snapshot, &mut sums);
        }
        let nanoseconds = start.elapsed().as_nanos() as f64;
        assert_eq!(number, 0, "{ACCEPTED}");
        black_box(sums);
        nanoseconds / timed.len() as f64
    }

    /// Nanoseconds of writing a record on average.
    pub fn time_writing<A: Adding>(&self, who: &A) -> f64 {
        let reached: Vec<A::Sums> = self.reached.iter().map(|sums| who.taken(sums)).collect();
        let (mut buffer, mut number) = ([0; MATRIX_RECORD_BYTES], 0);
        let nanoseconds = timed::mean(&reached, |sums| number |= who.write(sums, &mut buffer));
        assert_eq!(number, 0, "{ACCEPTED}");
        black_box(buffer);
        nanoseconds
    }
}

fn add(snapshot: &Snapshot, sums: &mut Covariance) {
    sums.add(snapshot.samples).expect(ACCEPTED);
}

#[cfg(test)]
mod tests {
    use super::*;

    #[test]
    fn the_batches_of_eight_rounds_go_through_all_counts() {
        let mut count = 0;
        for round in 0..8 {
            let batch = Batch::fresh(round, &mut Random::for_case(1, round));
            assert_eq!(batch.before.count, count);
            count += SNAPSHOTS as u32;
            assert_eq!(batch.reached.len(), WRITTEN + 1);
            assert_eq!(batch.reached[WRITTEN].count, count);
        }
        assert_eq!(count, SNAPSHOTS_MAX);
        let batch = Batch::fresh(8, &mut Random::for_case(1, 8));
        assert_eq!(batch.before.count, 0);
    }
}
