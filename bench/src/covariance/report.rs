//! The table that is printed.

use super::contenders::BASE;
use super::measure::{Measure, SNAPSHOTS, WRITTEN};
use super::rounds::Results;
use crate::report::{beside_engine, clock};
use crate::table::Table;

/// All times, with their ratios to the base, and the engine's times where theirs are 1.
pub fn everyone(results: &Results) -> Table {
    let measures = [("Adding", Measure::Add), ("Writing", Measure::Write)];
    beside_engine(results, BASE.name, &measures)
}

/// What the table has, what its ratios refer to, and the clock of the core in these rounds.
pub fn words(results: &Results) -> String {
    format!(
        "Adding is the mean over {SNAPSHOTS} snapshots, writing over {WRITTEN} of the sums that \
         they lead to. Ratios are to {}.{}",
        BASE.name,
        clock(results)
    )
}
