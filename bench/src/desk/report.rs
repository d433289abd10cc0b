//! The table that is printed.

use hubqr::FIRST_SHARE;

use super::contenders::{BASE, ENGINE};
use super::measure::Measure;
use super::rounds::Results;
use crate::report::{clock, number, ratio};
use crate::table::Table;

/// What the engine's desk takes beside the engine without one, with the ratios between which nine of
/// ten measurements lie, and beside each other desk.
pub fn everyone(results: &Results) -> Table {
    let mut table = Table::new(&["", "no desk, ns", "engine, ns", "ratio", "from", "to"]);
    let mut others = results.names(Measure::Round);
    others.retain(|name| ![ENGINE.name, BASE.name].contains(name));
    for other in &others {
        let columns = [format!("{other}, ns"), "engine over it".to_string()];
        table.header.extend(columns);
    }
    for measure in Measure::ALL {
        let spread = results.spread(ENGINE.name, BASE.name, measure);
        let mut row = vec![
            title(measure),
            number(results.nanoseconds(BASE.name, measure)),
            number(results.nanoseconds(ENGINE.name, measure)),
            ratio(results.ratio(ENGINE.name, BASE.name, measure)),
            ratio(spread.map(|(from, _)| from)),
            ratio(spread.map(|(_, to)| to)),
        ];
        for other in &others {
            row.push(number(results.nanoseconds(other, measure)));
            row.push(ratio(results.ratio(ENGINE.name, other, measure)));
        }
        table.rows.push(row);
    }
    table
}

fn title(measure: Measure) -> String {
    match measure {
        Measure::Load => "Hand-in, loaded".to_string(),
        Measure::Wait => "Hand-in, waits".to_string(),
        Measure::Run(request) => format!("Run, request {request}"),
        Measure::Fetch => "Fetch, none waits".to_string(),
        Measure::Next => "Fetch, brings in".to_string(),
        Measure::Round => format!("Round, eight times {FIRST_SHARE}"),
        Measure::Shares => "Setting shares".to_string(),
    }
}

/// What the table has, and the clock of the core in these rounds.
pub fn words(results: &Results) -> String {
    format!(
        "A time is the mean over the eight rounds of a desk that work eight matrices to the end. With \
         request 0 nothing is worked, and there are as many calls as with request 1; so often are \
         matrices handed in, results fetched and shares set. No desk is the engine's own Load, Run and \
         Fetch, by a host that keeps the jobs and what waits, and has neither roles nor shares; the \
         ratio is to that, and nine of ten measurements lie between from and to.{}",
        clock(results)
    )
}
