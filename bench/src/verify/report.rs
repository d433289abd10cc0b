//! The tables that are printed.

use super::contenders::BASE;
use super::measure::RESULTS;
use super::rounds::{Results, WHOLE};
use crate::report::{beside_engine, clock, spread_rows};
use crate::table::Table;

/// All times, with their ratios to the base, and the engine's times where theirs are 1.
pub fn everyone(results: &Results) -> Table {
    beside_engine(results, BASE.name, &[("Verify", ())])
}

/// How far apart the rounds are, in their ratios to the engine's Whole.
pub fn spreads(results: &Results) -> Table {
    spread_rows(results, "Verify", WHOLE, ())
}

/// What the tables have, what their ratios refer to, and the clock of the core in these rounds.
pub fn words(results: &Results) -> String {
    format!(
        "Verify is a matrix record and a result record in, a verdict out. A time is the mean over the \
         results of {RESULTS} matrices, which all get yes. {WHOLE} is what the engine takes to write \
         these results. Ratios of the first table are to {}.{}",
        BASE.name,
        clock(results)
    )
}
