//! What is timed, and on what.

use std::hint::black_box;

use hubqr::ffi::Verdict;
use hubqr::{AREA_WORDS, RESULT_RECORD_BYTES};
use reference::random::Random;

use super::contenders::Contender;
use crate::contenders::{Buffer, Record, ENGINE};
use crate::{inputs, timed};

/// Results that are timed together: enough for the clock to be exact, and so few that they stay in the
/// core's first cache, as a record does that was just made.
pub const RESULTS: usize = 12;

const YES: Verdict = Verdict { number: 0, yes: 1 };

/// Fresh matrices and their results, for which the answer is yes: all sums have to be looked at. The
/// first is for warming up and is not timed.
pub struct Batch {
    inputs: Vec<(Record, Buffer)>,
}

impl Batch {
    pub fn fresh(random: &mut Random) -> Batch {
        let input = |_| {
            let (matrix, mut result) = (inputs::record(random), [0; RESULT_RECORD_BYTES]);
            (ENGINE.whole)(&matrix, &mut [0; AREA_WORDS], &mut result);
            (matrix, result)
        };
        Batch {
            inputs: (0..=RESULTS).map(input).collect(),
        }
    }

    /// Nanoseconds of a contender's call on average.
    pub fn time(&self, who: &Contender) -> f64 {
        let mut all_yes = true;
        let nanoseconds = timed::mean(&self.inputs, |(matrix, result)| {
            all_yes &= black_box((who.verify)(matrix, result)) == YES;
        });
        assert!(all_yes, "what the engine writes gets yes");
        nanoseconds
    }

    /// Nanoseconds that the engine's Whole takes on average to write one of these results.
    pub fn time_whole(&self) -> f64 {
        let (mut area, mut buffer) = ([0; AREA_WORDS], [0; RESULT_RECORD_BYTES]);
        timed::mean(&self.inputs, |(matrix, _)| {
            black_box((ENGINE.whole)(matrix, &mut area, &mut buffer));
        })
    }
}
