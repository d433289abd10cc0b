//! The tables that are printed.

use super::contenders::{BASE, ENGINE};
use super::measure::{Batch, Measure, Work, HEARD_TOGETHER, RESULTS_TOGETHER, SIZES};
use super::rounds::Results;
use crate::report::{clock, number, ratio};
use crate::table::{grouped, Table};

const NOTHING: &str = "-";

pub fn adding(results: &Results) -> Table {
    table(results, &Work::ADDING)
}

pub fn sweeping(results: &Results) -> Table {
    table(results, &Work::SWEEPING)
}

pub fn reading(results: &Results) -> Table {
    table(results, &[Work::Read])
}

/// What the engine takes at each size, for each entry and each byte of the log too, and beside each
/// other.
fn table(results: &Results, works: &[Work]) -> Table {
    let measures = Measure::of(works);
    let mut table = Table::new(&["", "used bytes", "entries", "engine, ns"]);
    let columns = ["ns an entry", "ps a byte"].map(String::from);
    table.header.extend(columns);
    table.header.push(format!("{}, ns", BASE.name));
    let mut others = results.names(measures[0]);
    others.retain(|name| *name != ENGINE.name);
    let over = others.iter().map(|other| format!("engine over {other}"));
    table.header.extend(over);
    for measure in measures {
        table.rows.push(row(results, measure, &others));
    }
    table
}

fn row(results: &Results, measure: Measure, others: &[&'static str]) -> Vec<String> {
    let batch = Batch::new(measure);
    let engine = results.nanoseconds(ENGINE.name, measure);
    let each = |count: usize, unit: f64| match engine {
        Some(nanoseconds) if count > 0 => format!("{:.2}", unit * nanoseconds / count as f64),
        _ => NOTHING.to_string(),
    };
    let mut row = vec![
        title(measure),
        grouped(batch.used as f64),
        grouped(batch.entries as f64),
        number(engine),
        each(batch.entries, 1.0),
        each(batch.used, 1000.0),
        number(results.nanoseconds(BASE.name, measure)),
    ];
    let ratios = others
        .iter()
        .map(|other| ratio(results.ratio(ENGINE.name, other, measure)));
    row.extend(ratios);
    row
}

fn title(Measure { work, of, bytes }: Measure) -> String {
    let of = if bytes == 0 { "nothing" } else { of.name() };
    match work {
        Work::AddHeard => format!("Heard byte, behind {of}"),
        Work::AddResult => format!("Result, behind {of}"),
        Work::KeepAll => format!("Keeps all {of}"),
        Work::DropAll => format!("Drops all {of}"),
        Work::DropResult => format!("Drops a result before {of}"),
        Work::DropHeard => format!("Drops a heard byte before {of}"),
        Work::DropHalf => format!("Drops every second of {of}"),
        Work::Read => format!("Reads {of}"),
    }
}

/// What the tables have, and the clock of the core in these rounds.
pub fn words(results: &Results) -> String {
    let kilobytes = |bytes: usize| bytes / 1024;
    let [small, middle, large] = SIZES.map(kilobytes);
    let (together, heard) = (kilobytes(RESULTS_TOGETHER), kilobytes(HEARD_TOGETHER));
    format!(
        "A log is filled up to {small}, {middle} or {large} KB with results, which take 2,054 bytes each, \
         or with heard bytes, which take 6. As many of a size are timed together as make {together} KB, \
         or {heard} KB of heard bytes. A time is that of one call, and in reading that of the calls for \
         all entries.{}",
        clock(results)
    )
}
