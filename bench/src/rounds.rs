//! The rounds: in each, every contender does every measure once, on the same fresh inputs.

use crate::contenders::{self, Contender, BASE, ENGINE};
use crate::doubles::{self, Comparator};
use crate::measure::{Batch, Measure};
use crate::times::{in_turn, Times};

enum Who {
    Contender(Contender),
    Comparator(Comparator),
}

impl Who {
    fn name(&self) -> &'static str {
        match self {
            Who::Contender(contender) => contender.name,
            Who::Comparator(comparator) => comparator.name,
        }
    }

    /// The doubles know whole factorizations only; the parts are compared with the base alone.
    fn does(&self, measure: Measure) -> bool {
        match (self, measure) {
            (_, Measure::Whole) => true,
            (Who::Comparator(_), _) => false,
            (_, Measure::Rotation | Measure::Arbitrary) => true,
            (_, _) => [ENGINE.name, BASE.name].contains(&self.name()),
        }
    }

    fn time(&self, batch: &Batch) -> f64 {
        match self {
            Who::Contender(contender) => batch.time(contender),
            Who::Comparator(comparator) => batch.time_double(comparator),
        }
    }
}

pub type Results = Times<Measure>;

pub fn measured(rounds: u64, seed: u64) -> Results {
    let everyone = everyone();
    Times::of_rounds(rounds, seed, |round, random, times| {
        for measure in Measure::all() {
            let batch = Batch::fresh(measure, random);
            let who = everyone.iter().filter(|who| who.does(measure));
            for who in in_turn(who.collect(), round) {
                times.note(who.name(), measure, who.time(&batch));
            }
        }
    })
}

fn everyone() -> Vec<Who> {
    let contenders = contenders::all().into_iter().map(Who::Contender);
    let comparators = doubles::all().into_iter().map(Who::Comparator);
    contenders.chain(comparators).collect()
}
