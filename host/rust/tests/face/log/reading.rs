//! Reading: entry by entry at the places that were answered, and by the iterator.
use super::format::{broken, entry, in_buffer, of_each_kind, written, DAYS};
use super::raw;
use hubqr::ffi::LogEntry;
use hubqr::Refusal::BrokenLog;
use hubqr::{Entries, Entry, Journal};
use std::iter::FusedIterator;

/// Entries of all kinds and days.
fn log() -> Vec<Vec<u8>> {
    DAYS.iter()
        .flat_map(|&day| of_each_kind(day.saturating_sub(2)))
        .collect()
}

/// What is answered for the entry of these bytes at a place.
fn answered(at: usize, bytes: &[u8]) -> LogEntry {
    LogEntry {
        number: 0,
        kind: bytes[0].into(),
        day: entry(bytes).day,
        body: at + 5,
        body_len: bytes.len() - 5,
        next: at + bytes.len(),
    }
}

#[test]
fn each_entry_is_read_at_its_place() {
    let entries = log();
    let used = entries.concat();
    for buffer in [used.clone(), in_buffer(&used, 7), in_buffer(&used, 3000)] {
        let mut at = 0;
        for bytes in &entries {
            let found = raw::next(at, used.len(), &buffer);
            assert_eq!(found, answered(at, bytes));
            assert_eq!(Entry::read(at, &used), Ok(Some(entry(bytes))));
            assert_eq!(entry(bytes).length(), bytes.len());
            at = found.next;
        }
        assert_eq!(raw::next(at, used.len(), &buffer), raw::end(at));
        assert_eq!(Entry::read(at, &used), Ok(None));
    }
}

/// Those before it and behind it may be what they are.
#[test]
fn one_entry_is_looked_at_alone() {
    let heard = written(7, 100, &[0xff]);
    let mut buffer = [&[0; 9][..], &heard, &[0; 9]].concat();
    assert_eq!(raw::next(9, 15, &buffer), answered(9, &heard));
    assert_eq!(raw::next(9, 24, &buffer), answered(9, &heard));
    assert_eq!(Entry::read(9, &buffer), Ok(Some(entry(&heard))));
    assert_eq!(raw::next(0, 24, &buffer), raw::no_entry(BrokenLog));
    assert_eq!(raw::next(15, 24, &buffer), raw::no_entry(BrokenLog));
    buffer[9] = 5;
    assert_eq!(raw::next(9, 24, &buffer), raw::no_entry(BrokenLog));
}

#[test]
fn what_is_no_entry_is_refused() {
    let used = written(7, 100, &[0xff]);
    for (at, count) in [
        (0, 7),
        (7, 7),
        (0, usize::MAX),
        (usize::MAX, usize::MAX),
        (7, 6),
        (usize::MAX, 6),
        (1, 0),
        (usize::MAX, 0),
        (0, 1),
        (0, 5),
        (1, 6),
        (5, 6),
    ] {
        assert_eq!(raw::next(at, count, &used), raw::no_entry(BrokenLog));
    }
    for at in [1, 5, 7, usize::MAX] {
        assert_eq!(Entry::read(at, &used), Err(BrokenLog));
    }
    for kind in (0..=4).chain(8..=255) {
        let alone = written(kind, 100, &[1; 2049]);
        assert_eq!(raw::next(0, 2054, &alone), raw::no_entry(BrokenLog));
    }
}

/// Reading on from 0 meets 16 exactly where sweeping answers it.
#[test]
fn reading_on_meets_what_a_sweep_refuses() {
    let mut logs = broken();
    logs.extend([vec![], of_each_kind(100).concat(), log().concat()]);
    for log in logs {
        let mut at = 0;
        let read = loop {
            match Entry::read(at, &log) {
                Ok(Some(entry)) => at += entry.length(),
                Ok(None) => break Ok(()),
                Err(refusal) => break Err(refusal),
            }
        };
        let swept = raw::sweep(0, log.len(), &mut log.clone());
        assert_eq!(read.is_err(), swept.number == 16);
        assert_eq!(Entries::of(&log).err(), read.err());
    }
}

#[test]
fn the_iterator_has_all_entries_in_order() {
    let entries = log();
    let used = entries.concat();
    let expected: Vec<Entry> = entries.iter().map(|bytes| entry(bytes)).collect();
    let found: Vec<Entry> = Entries::of(&used).unwrap().collect();
    assert_eq!(found, expected);

    let mut buffer = in_buffer(&used, 5);
    let journal = Journal::open(&mut buffer, used.len()).unwrap();
    assert!(journal.entries().eq(expected.iter().copied()));
    let mut count = 0;
    for (entry, expected) in (&journal).into_iter().zip(&expected) {
        assert_eq!(entry, *expected);
        count += 1;
    }
    assert_eq!(count, expected.len());
}

fn fused<I: FusedIterator + Clone>(entries: I) -> I {
    entries
}

#[test]
fn the_iterator_keeps_its_laws() {
    let entries = log();
    let used = entries.concat();
    let mut reading = fused(Entries::of(&used).unwrap());
    let mut place = 0;
    for (k, bytes) in entries.iter().enumerate() {
        let left = entries.len() - k;
        let (fewest, most) = reading.size_hint();
        assert!(fewest <= left && left <= most.unwrap());
        assert_eq!((reading.place(), reading.clone().count()), (place, left));
        assert_eq!(reading.clone().next(), reading.next());
        place += bytes.len();
    }
    assert_eq!(
        (reading.place(), reading.size_hint()),
        (place, (0, Some(0)))
    );
    for _ in 0..3 {
        assert_eq!((reading.next(), reading.place()), (None, place));
    }
}

/// Where all are results or none is, as many are left as is said.
#[test]
fn sizes_are_met() {
    let results = written(5, 1, &[0; 2049]).repeat(5);
    assert_eq!(Entries::of(&results).unwrap().size_hint().0, 5);
    let heard = written(7, 1, &[0]).repeat(5);
    assert_eq!(Entries::of(&heard).unwrap().size_hint().1, Some(5));
}

/// What was read outlives the iterator, and lives as long as the bytes do.
#[test]
fn entries_borrow_from_the_bytes() {
    let used = of_each_kind(100).concat();
    let last = {
        let entries = Entries::of(&used).unwrap();
        entries.last().unwrap()
    };
    assert_eq!(last, entry(&used[2060..]));
}
