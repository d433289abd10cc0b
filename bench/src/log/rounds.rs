//! The rounds: in each, every contender makes every call on the same logs.

use super::contenders;
use super::measure::{Batch, Measure};
use crate::times::{in_turn, Times};

pub type Results = Times<Measure>;

pub fn measured(rounds: u64, seed: u64) -> Results {
    let everyone = contenders::all();
    let batches: Vec<Batch> = Measure::all().into_iter().map(Batch::new).collect();
    let mut scratch = Vec::new();
    Times::of_rounds(rounds, seed, |round, _, times| {
        for batch in &batches {
            for who in in_turn(everyone.iter().collect(), round) {
                times.note(who.name, batch.measure, batch.time(who, &mut scratch));
            }
        }
    })
}
