//! Sweeps that drop any of the entries of a log, and close the gaps.

use reference::log::{Entry, EntryKind};
use reference::random::Random;

use crate::common::log::{BothLog, Call, Reply, Seen};
use crate::common::Case;
use crate::logs::{bytes, days, entry};
use crate::rules::{Others, Rule};

use EntryKind::{Heard, Refusal, Result};

type OtherSweeps = Others<{ Rule::OF_SWEEPING.len() }>;

const TODAY: u32 = 20_000;

/// Bytes behind the log.
const TAIL: usize = 33;

/// An entry that a sweep drops today, or one that stays, of the future too.
fn aged(kind: EntryKind, dropped: bool, random: &mut Random) -> Entry {
    let length = days(kind) as i64;
    let age = if dropped {
        length + random.choose(&[0, 0, 1, 500])
    } else {
        length - random.choose(&[1, 1, 2, length, length + 1, length + 500])
    };
    entry(kind, (i64::from(TODAY) - age) as u32, random)
}

/// Sweeps a log of which the entries at the set bits are to be dropped. Those that stay stand at its
/// start, what is behind them is as before, and another sweep changes nothing.
fn sweep(case: Case, kinds: &[EntryKind], dropped: u32, seen: &mut Seen, others: &mut OtherSweeps) {
    let mut random = case.random();
    let (mut all, mut stay) = (Vec::new(), Vec::new());
    for (k, kind) in kinds.iter().enumerate() {
        let is_dropped = dropped >> k & 1 == 1;
        let entry = aged(*kind, is_dropped, &mut random);
        if !is_dropped {
            stay.push(entry.clone());
        }
        all.push(entry);
    }
    let (before, due) = (bytes(&all), bytes(&stay));
    let mut log = BothLog::holding(case, &before, before.len() + TAIL);
    let (day, mut used) = (TODAY, before.len());
    for round in ["a sweep", "a second sweep"] {
        let made = seen.make(&mut log, Call::Sweep { day, used });
        log.require(made.reply == Reply::used(due.len()), round);
        log.require(made.after[..due.len()] == due, round);
        log.require(made.after[due.len()..] == made.before[due.len()..], round);
        let same = made.before == made.after;
        log.require(same || (round == "a sweep" && dropped != 0), round);
        others.look(&made);
        used = due.len();
    }
    assert_eq!(seen.read_back(&mut log, used), Some(stay));
}

/// All logs of up to four entries, and all ways to drop some of them: over gaps that are shorter than
/// what is moved, and longer.
#[test]
fn every_way_to_drop_some_of_four() {
    let (mut seen, mut others) = (Seen::default(), Others::of(Rule::OF_SWEEPING));
    let mut number = 0;
    for count in 0..=4 {
        for layout in 0..3_usize.pow(count) {
            let places = 0..count;
            let kinds = places.map(|k| EntryKind::ALL[layout / 3_usize.pow(k) % 3]);
            let kinds: Vec<EntryKind> = kinds.collect();
            for dropped in 0..1 << count {
                let case = Case::of_words("gaps", 1551, number);
                sweep(case, &kinds, dropped, &mut seen, &mut others);
                number += 1;
            }
        }
    }
    seen.print(&format!("{number} ways to drop some of up to four entries"));
    others.print_and_require_all_rules("gaps");
    seen.assert_numbers(&[]);
}

#[test]
fn every_way_to_drop_some_of_ten() {
    let (mut seen, mut others) = (Seen::default(), Others::of(Rule::OF_SWEEPING));
    for dropped in 0..1 << 10 {
        let case = Case::of_words("gaps of ten", 1552, dropped.into());
        let mut random = Random::for_case(1553, dropped.into());
        let mut kinds: Vec<EntryKind> = (0..9).map(|_| random.choose(&[Refusal, Heard])).collect();
        kinds.insert(random.below(10), Result);
        sweep(case, &kinds, dropped, &mut seen, &mut others);
    }
    seen.print("1024 ways to drop some of ten entries");
    others.print_and_require_all_rules("gaps of ten");
    seen.assert_numbers(&[]);
}
