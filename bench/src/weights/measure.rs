//! What is timed, and on what.

use std::hint::black_box;

use hubqr::ffi::Snapshot;
use hubqr::AREA_WORDS;
use reference::random::Random;

use super::contenders::Contender;
use crate::contenders::{Buffer, ACCEPTED, ENGINE};
use crate::{inputs, timed};

/// Records that are timed together: enough for the clock to be exact, and so few that they stay in
/// the core's first cache, as a record does that was just made.
pub const RECORDS: usize = 16;

/// Results of fresh matrices, and targets for each. The first is for warming up and is not timed.
pub struct Batch {
    inputs: Vec<(Buffer, Snapshot)>,
}

impl Batch {
    pub fn fresh(random: &mut Random) -> Batch {
        let input = |_| {
            let mut result = [0; hubqr::RESULT_RECORD_BYTES];
            (ENGINE.whole)(&inputs::record(random), &mut [0; AREA_WORDS], &mut result);
            (result, inputs::snapshot(random))
        };
        Batch {
            inputs: (0..=RECORDS).map(input).collect(),
        }
    }

    /// Nanoseconds of a contender's call on average.
    pub fn time(&self, who: &Contender) -> f64 {
        let mut number = 0;
        let nanoseconds = timed::mean(&self.inputs, |(record, targets)| {
            number |= black_box((who.weights)(record, *targets)).number;
        });
        assert_eq!(number, 0, "{ACCEPTED}");
        nanoseconds
    }
}
