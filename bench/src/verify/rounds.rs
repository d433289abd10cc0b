//! The rounds: in each, every contender verifies the same fresh results, and the engine's Whole writes
//! them again.

use super::contenders;
use super::measure::Batch;
use crate::times::{in_turn, Times};

/// There is one measure.
pub type Results = Times<()>;

/// The name of the engine's Whole among those who verify.
pub const WHOLE: &str = "engine, Whole";

pub fn measured(rounds: u64, seed: u64) -> Results {
    let verifying = contenders::all();
    let everyone = verifying.iter().map(Some).chain([None]);
    Times::of_rounds(rounds, seed, |round, random, times| {
        let batch = Batch::fresh(random);
        for who in in_turn(everyone.clone().collect(), round) {
            match who {
                Some(who) => times.note(who.name, (), batch.time(who)),
                None => times.note(WHOLE, (), batch.time_whole()),
            }
        }
    })
}
