//! The tables that are printed.

use reference::rotation::STEPS;
use reference::schedule;

use crate::contenders::{BASE, ENGINE};
use crate::measure::Measure;
use crate::rounds::Results;
use crate::table::{grouped, Table};
use crate::times::Times;

const NOTHING: &str = "-";

/// The measures that all contenders do.
const COMMON: [Measure; 3] = [Measure::Whole, Measure::Rotation, Measure::Arbitrary];

/// All times, with their ratios to the base.
pub fn everyone(results: &Results) -> Table {
    let mut table = Table::new(&[
        "",
        "Whole: ratio",
        "ns",
        "cycles",
        "Rotation: ratio",
        "ns",
        "cycles",
        "Fallback: ratio",
        "ns",
        "cycles",
    ]);
    for name in results.names(Measure::Whole) {
        let columns = COMMON.map(|measure| ratio_time_cycles(results, name, BASE.name, measure));
        let name = [name.to_string()].into_iter();
        table.rows.push(name.chain(columns.concat()).collect());
    }
    table
}

/// The engine's times where another's are 1.
pub fn engine_over_others(results: &Results) -> Table {
    let mut table = Table::new(&["engine over", "Whole", "Rotation", "Fallback"]);
    for other in results.names(Measure::Whole) {
        let ratios = COMMON.map(|measure| ratio(results.ratio(ENGINE.name, other, measure)));
        if other != ENGINE.name {
            let name = [other.to_string()].into_iter();
            table.rows.push(name.chain(ratios).collect());
        }
    }
    table
}

/// How far apart the rounds are.
pub fn spreads(results: &Results) -> Table {
    spread_rows(results, "Whole", BASE.name, Measure::Whole)
}

/// How far apart the rounds of a measure are, in their ratios to the base.
pub fn spread_rows<M: Copy + PartialEq>(
    times: &Times<M>,
    title: &str,
    base: &str,
    measure: M,
) -> Table {
    let mut table = Table::new(&[&format!("{title} over {base}"), "median", "from", "to"]);
    for name in times.names(measure) {
        let spread = times.spread(name, base, measure);
        table.rows.push(vec![
            name.to_string(),
            ratio(times.ratio(name, base, measure)),
            ratio(spread.map(|(from, _)| from)),
            ratio(spread.map(|(_, to)| to)),
        ]);
    }
    table
}

/// How Run's time grows with its allowance.
pub fn growth(results: &Results) -> Table {
    let mut table = Table::new(&[
        "allowance",
        "micro-rotations",
        "engine, ns",
        "ns a rotation",
        "ps a micro-rotation",
        "C plain, ns",
        "ratio",
    ]);
    for allowance in Measure::ALLOWANCES {
        let measure = Measure::Run(allowance);
        let micro_rotations = micro_rotations(allowance);
        let engine = results.nanoseconds(ENGINE.name, measure);
        let each = |parts: f64| engine.map(|nanoseconds| nanoseconds / parts);
        table.rows.push(vec![
            allowance.to_string(),
            grouped(micro_rotations),
            number(engine),
            number(each(f64::from(allowance))),
            number(each(micro_rotations / 1000.0)),
            number(results.nanoseconds(BASE.name, measure)),
            ratio(results.ratio(ENGINE.name, BASE.name, measure)),
        ]);
    }
    table
}

/// What each call takes of Whole's time, and Whole itself on emptier matrices.
pub fn shares(results: &Results) -> Table {
    let mut table = Table::new(&["call", "engine, ns", "of Whole", "C plain, ns", "ratio"]);
    let whole = results.nanoseconds(ENGINE.name, Measure::Whole);
    for (name, measure) in [
        ("Load", Measure::Load),
        ("Run, allowance 120", Measure::Run(120)),
        ("Fetch", Measure::Fetch),
        ("Whole", Measure::Whole),
        ("Whole, half-empty", Measure::HalfEmpty),
        ("Whole, diagonal", Measure::Diagonal),
    ] {
        let engine = results.nanoseconds(ENGINE.name, measure);
        let share = engine.zip(whole).map(|(part, whole)| 100.0 * part / whole);
        table.rows.push(vec![
            name.to_string(),
            number(engine),
            share.map_or(NOTHING.to_string(), |share| format!("{share:.1}%")),
            number(results.nanoseconds(BASE.name, measure)),
            ratio(results.ratio(ENGINE.name, BASE.name, measure)),
        ]);
    }
    table
}

/// The micro-rotations of columns in this many rotations from the first on.
fn micro_rotations(rotations: u16) -> f64 {
    let turns = schedule::turns().into_iter().take(usize::from(rotations));
    turns.map(|turn| ((32 - turn.column) * STEPS) as f64).sum()
}

/// All times at some measures, each under its title, with their ratios to the base, and the engine's
/// times where theirs are 1. Everyone is timed at the first of them.
pub fn beside_engine<M: Copy + PartialEq>(
    times: &Times<M>,
    base: &str,
    measures: &[(&str, M)],
) -> Table {
    let mut table = Table::new(&[""]);
    for (title, _) in measures {
        let columns = ["ns", "cycles", "engine over it"].map(String::from);
        table.header.push(format!("{title}: ratio"));
        table.header.extend(columns);
    }
    for name in times.names(measures[0].1) {
        let mut row = vec![name.to_string()];
        for &(_, measure) in measures {
            row.extend(ratio_time_cycles(times, name, base, measure));
            row.push(ratio(times.ratio(ENGINE.name, name, measure)));
        }
        table.rows.push(row);
    }
    table
}

/// The clock of the core in these rounds, as a sentence behind another, if it is known.
pub fn clock<M: Copy + PartialEq>(times: &Times<M>) -> String {
    let clock = times.cycles_per_nanosecond();
    let sentence = clock.map(|clock| format!(" The core clock was about {clock:.2} GHz."));
    sentence.unwrap_or_default()
}

/// The ratio of a call's time to the base's, and the time in nanoseconds and in cycles of the core.
fn ratio_time_cycles<M: Copy + PartialEq>(
    times: &Times<M>,
    name: &str,
    base: &str,
    measure: M,
) -> [String; 3] {
    let time = times.nanoseconds(name, measure);
    let clock = times.cycles_per_nanosecond();
    let cycles = time.zip(clock).map(|(time, clock)| time * clock);
    [
        ratio(times.ratio(name, base, measure)),
        number(time),
        number(cycles),
    ]
}

pub fn ratio(value: Option<f64>) -> String {
    value.map_or(NOTHING.to_string(), |ratio| format!("{ratio:.3}"))
}

pub fn number(value: Option<f64>) -> String {
    value.map_or(NOTHING.to_string(), grouped)
}

#[cfg(test)]
mod tests {
    use super::*;

    #[test]
    fn a_factorization_has_91840_micro_rotations() {
        assert_eq!(micro_rotations(120), 91_840.0);
        assert_eq!(micro_rotations(1), 896.0);
    }
}
