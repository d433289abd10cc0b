//! The rounds: in each, every contender adds the same fresh snapshots and writes the same sums.

use super::contenders;
use super::measure::{Batch, Measure};
use crate::times::{in_turn, Times};

pub type Results = Times<Measure>;

pub fn measured(rounds: u64, seed: u64) -> Results {
    let everyone = contenders::all();
    Times::of_rounds(rounds, seed, |round, random, times| {
        let batch = Batch::fresh(round, random);
        for measure in Measure::ALL {
            let who = everyone.iter().filter(|who| who.does(measure));
            for who in in_turn(who.collect(), round) {
                times.note(who.name, measure, who.time(&batch, measure));
            }
        }
    })
}
