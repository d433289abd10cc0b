//! The rounds of measurements: in each, every contender serves sectors with the same fresh matrices.

use super::contenders;
use super::measure::{Batch, Measure};
use crate::times::{in_turn, Times};

pub type Results = Times<Measure>;

pub fn measured(rounds: u64, seed: u64) -> Results {
    let everyone = contenders::all();
    Times::of_rounds(rounds, seed, |round, random, times| {
        let batch = Batch::fresh(random);
        for measure in Measure::ALL {
            let who = everyone.iter().filter(|who| measure.is_for(who));
            for who in in_turn(who.collect(), round) {
                times.note(who.name, measure, batch.time(who, measure));
            }
        }
    })
}
