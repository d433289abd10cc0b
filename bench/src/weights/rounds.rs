//! The rounds: in each, every contender solves for the same fresh targets.

use super::contenders;
use super::measure::Batch;
use crate::times::{in_turn, Times};

/// There is one measure.
pub type Results = Times<()>;

pub fn measured(rounds: u64, seed: u64) -> Results {
    let everyone = contenders::all();
    Times::of_rounds(rounds, seed, |round, random, times| {
        let batch = Batch::fresh(random);
        for who in in_turn(everyone.iter().collect(), round) {
            times.note(who.name, (), batch.time(who));
        }
    })
}
