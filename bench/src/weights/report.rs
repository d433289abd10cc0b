//! The tables that are printed.

use super::contenders::BASE;
use super::measure::RECORDS;
use super::rounds::Results;
use crate::report::{beside_engine, clock, spread_rows};
use crate::table::Table;

/// All times, with their ratios to the base, and the engine's times where theirs are 1.
pub fn everyone(results: &Results) -> Table {
    beside_engine(results, BASE.name, &[("Weights", ())])
}

/// How far apart the rounds are.
pub fn spreads(results: &Results) -> Table {
    spread_rows(results, "Weights", BASE.name, ())
}

/// What the tables have, what their ratios refer to, and the clock of the core in these rounds.
pub fn words(results: &Results) -> String {
    format!(
        "A time is the mean over the results of {RECORDS} matrices, each with targets of its own. \
         Ratios are to {}.{}",
        BASE.name,
        clock(results)
    )
}
