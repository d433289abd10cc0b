//! How long entries stay: each kind around its days, at both ends of what a day can be.

use reference::log::{Entry, EntryKind};
use reference::random::Random;

use crate::common::log::{BothLog, Call, Reply, Seen};
use crate::common::Case;
use crate::logs::{bytes, days, entries, entry, stays};
use crate::rules::{Others, Rule};

/// Sweeps a log and answers how many entries are left, which are those that are there on the day.
fn sweep<const RULES: usize>(
    case: Case,
    entries: &[Entry],
    day: u32,
    seen: &mut Seen,
    others: &mut Others<RULES>,
) -> usize {
    let before = bytes(entries);
    let mut log = BothLog::holding(case, &before, before.len() + 9);
    let used = before.len();
    let made = seen.make(&mut log, Call::Sweep { day, used });
    others.look(&made);
    let there = entries.iter().filter(|entry| stays(entry, day)).cloned();
    let there: Vec<Entry> = there.collect();
    let (left, used) = (there.len(), bytes(&there).len());
    let due = made.reply == Reply::used(used) && seen.read_back(&mut log, used) == Some(there);
    log.require(due, format_args!("{:?} to {}", made.reply, made.call));
    left
}

/// The last day of each kind for an entry of day 100, and the first on which it is swept.
#[test]
fn entries_of_day_100() {
    let (mut seen, mut others) = (Seen::default(), Others::of(Rule::OF_SMALL_DAYS));
    let mut random = Random::new(1521);
    for (kind, last) in EntryKind::ALL.into_iter().zip([106, 129, 189]) {
        let alone = [entry(kind, 100, &mut random)];
        for day in (0..=300).chain([u32::MAX]) {
            let case = Case::of_words("day 100", 1521, day.into());
            let left = sweep(case, &alone, day, &mut seen, &mut others);
            assert_eq!(left == 1, day <= last, "{kind:?} on day {day}");
        }
    }
    seen.print("Entries of day 100 on every day up to 300");
    others.print_and_require_all_rules("day 100");
    seen.assert_numbers(&[]);
}

/// Days at both ends, in the middle and around every power of two from 2^8 on.
fn dates() -> Vec<u32> {
    let start = (0..=10).chain([29, 30, 31, 89, 90, 91]);
    let powers = (8..32).map(|bit| 1_u32 << bit);
    let powers = powers.flat_map(|power| [power - 1, power, power + 1]);
    let middle = [6, 7, 8, 29, 30, 31, 89, 90, 91].map(|days| (1 << 31) - days);
    let end = (0..=10).chain([28, 29, 30, 31, 88, 89, 90, 91, 92]);
    let end = end.map(|before| u32::MAX - before);
    start.chain(powers).chain(middle).chain(end).collect()
}

/// The days to sweep on for entries of one day: around it, around the ends of the three kinds, and the
/// ends of the range.
fn sweep_days(date: u32) -> Vec<u32> {
    let kinds = EntryKind::ALL.into_iter();
    let ends = kinds.flat_map(|kind| [-1, 0, 1].map(|off| days(kind) as i64 + off));
    let around = ends.chain([-(1 << 31), -91, -90, -7, -1, 0, 1, 1 << 31]);
    let around = around.map(|off| i64::from(date) + off);
    let fixed = [
        0,
        1,
        7,
        (1 << 31) - 1,
        1 << 31,
        (1 << 32) - 2,
        (1 << 32) - 1,
    ];
    let all = around.chain(fixed);
    all.filter_map(|day| u32::try_from(day).ok()).collect()
}

/// One entry of each kind, all of the same day.
#[test]
fn days_up_to_the_last_do_not_wrap() {
    let (mut seen, mut others) = (Seen::default(), Others::of(Rule::OF_DAYS));
    let mut random = Random::new(1522);
    let mut counts = [0; 4];
    for date in dates() {
        let all = entries(&EntryKind::ALL, date, &mut random);
        for day in sweep_days(date) {
            let case = Case::of_words("last days", 1522, date.into());
            counts[sweep(case, &all, day, &mut seen, &mut others)] += 1;
        }
    }
    seen.print("Days at the ends of the range");
    println!("entries left of three: {counts:?} sweeps with 0 to 3 of them");
    others.print_and_require_all_rules("last days");
    seen.assert_numbers(&[]);
    assert!(counts.iter().all(|count| *count > 50));
}

/// Logs of entries of all ages and of the future, in any order.
#[test]
fn logs_of_all_ages() {
    let (mut seen, mut others) = (Seen::default(), Others::of(Rule::OF_DAYS));
    let todays = [50, 20_000, 65_536, 1 << 31, u32::MAX];
    for number in 0..1_200 {
        let case = Case::of_words("ages", 1523, number);
        let mut random = case.random();
        let today = random.choose(&todays);
        let mut all = Vec::new();
        for _ in 0..random.below(12) {
            let kind = random.choose(&EntryKind::ALL);
            let date = i64::from(today) - random.between(-100, 100);
            let date = date.clamp(0, u32::MAX.into()) as u32;
            all.push(entry(kind, date, &mut random));
        }
        sweep(case, &all, today, &mut seen, &mut others);
    }
    seen.print("Logs of all ages");
    others.print_and_require_all_rules("ages");
    seen.assert_numbers(&[]);
}
