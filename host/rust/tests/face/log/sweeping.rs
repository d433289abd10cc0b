//! Sweeping: how long each kind stays, gaps, order, and the bytes behind.
use super::format::{body, in_buffer, of_each_kind, written, DAYS, KINDS};
use super::raw;
use hubqr::Journal;

/// Sweeps a log by the archive and by a journal: these entries stay, and the bytes from the used count
/// on are those from before.
fn sweeps(day: u32, log: &[Vec<u8>], stay: impl Fn(usize) -> bool) {
    let before = in_buffer(&log.concat(), 20);
    let kept = (0..log.len()).filter(|&k| stay(k)).map(|k| &log[k][..]);
    let kept = kept.collect::<Vec<_>>().concat();
    let expected = [&kept[..], &before[kept.len()..]].concat();
    let used = before.len() - 20;

    let mut buffer = before.clone();
    let reply = raw::sweep(day, used, &mut buffer);
    assert_eq!(reply, raw::accepted(kept.len()), "day {day}");
    assert_eq!(buffer, expected, "day {day}");

    let mut buffer = before;
    let mut journal = Journal::open(&mut buffer, used).unwrap();
    journal.sweep(day);
    assert_eq!(journal.bytes(), kept);
    assert_eq!(journal.unused(), &expected[kept.len()..]);
}

#[test]
fn a_result_of_day_100_is_there_on_106_and_swept_on_107() {
    let log = [written(5, 100, &body(2049, 1))];
    sweeps(106, &log, |_| true);
    sweeps(107, &log, |_| false);
}

/// On the first day on which it is swept, on the day before, and on others.
#[test]
fn each_kind_has_its_days() {
    for (kind, bytes, days) in KINDS {
        for day in DAYS {
            let log = [written(kind, day, &body(bytes, 2))];
            let end = u64::from(day) + u64::from(days);
            for sweep in [end.saturating_sub(1), end, end + 1, u64::from(day)] {
                if let Ok(sweep) = u32::try_from(sweep) {
                    sweeps(sweep, &log, |_| u64::from(sweep) < end);
                }
            }
            sweeps(0, &log, |_| true);
            sweeps(u32::MAX, &log, |_| u64::from(u32::MAX) < end);
        }
    }
}

/// Sums of days do not wrap: what is dated near the end of the range stays for ever.
#[test]
fn entries_dated_after_the_sweep_stay() {
    for (kind, bytes, days) in KINDS {
        for day in [u32::MAX, u32::MAX - days + 1] {
            let log = [written(kind, day, &body(bytes, 3))];
            for sweep in [0, days, 20_000, u32::MAX - 1, u32::MAX] {
                sweeps(sweep, &log, |_| true);
            }
        }
        let log = [written(kind, u32::MAX - days, &body(bytes, 3))];
        sweeps(u32::MAX, &log, |_| false);
    }
}

/// Each subset of eight entries is swept, of all kinds in a mixed order.
#[test]
fn gaps_are_closed_and_the_order_is_kept() {
    for swept in 0..1 << 8 {
        let entry = |k: usize| {
            let (kind, bytes, days) = KINDS[k * k % 3];
            let day = 1000 - days + u32::from(swept >> k & 1 == 0);
            written(kind, day, &body(bytes, k as u8))
        };
        let log: Vec<Vec<u8>> = (0..8).map(entry).collect();
        sweeps(1000, &log, |k| swept >> k & 1 == 0);
    }
}

/// Out of order: a later entry may be older.
#[test]
fn days_need_not_grow() {
    let days = [300, 100, 0, u32::MAX, 200, 299];
    let log = days.map(|day| written(7, day, &[day as u8]));
    sweeps(289, &log, |k| days[k] >= 200);
}

#[test]
fn a_log_of_no_entries_stays_empty() {
    sweeps(0, &[], |_| true);
    sweeps(u32::MAX, &[], |_| true);
    let mut journal = Journal::new(&mut []);
    journal.sweep(100);
    assert_eq!((journal.used(), journal.entries().count()), (0, 0));
}

#[test]
fn a_sweep_that_is_repeated_changes_nothing() {
    for day in [0, 107, 131, 191, 192, u32::MAX] {
        let log = of_each_kind(100).concat();
        let mut once = in_buffer(&log, 10);
        let reply = raw::sweep(day, log.len(), &mut once);
        let mut twice = once.clone();
        assert_eq!(raw::sweep(day, reply.used, &mut twice), reply);
        assert_eq!(twice, once);
    }
}

/// The freed end is used again, entry by entry.
#[test]
fn what_was_freed_is_used_again() {
    let mut buffer = [0; 12];
    let mut journal = Journal::new(&mut buffer);
    for day in (0..900).step_by(90) {
        journal.sweep(day);
        assert_eq!(journal.used(), 0);
        journal.add_bytes(7, day, &[1]).unwrap();
        journal.add_bytes(6, day, &[2]).unwrap();
        journal.add_bytes(6, day, &[3]).unwrap_err();
        journal.sweep(day + 30);
        assert_eq!(journal.used(), 6);
        journal.add_bytes(6, day + 30, &[3]).unwrap();
    }
}
