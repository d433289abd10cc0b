//! A journal keeps the used count: from call to call, and where it is kept elsewhere.
use super::format::{body, broken, entry, in_buffer, of_each_kind, written, KINDS, SCRIBBLE};
use hubqr::Refusal::{self, *};
use hubqr::{Body, Journal};

/// A call that must be refused leaves the used count and every byte.
fn refused(log: &[u8], room: usize, kind: u32, bytes: usize, with: Refusal) {
    let before = in_buffer(log, room);
    let mut buffer = before.clone();
    let mut journal = Journal::open(&mut buffer, log.len()).unwrap();
    let outcome = journal.add_bytes(kind, 20_000, &body(bytes, 1));
    assert_eq!(outcome, Err(with), "{kind} {bytes}");
    assert_eq!((journal.used(), journal.bytes()), (log.len(), log));
    journal.sweep(0);
    assert_eq!(journal.into_parts(), (&mut before.clone()[..], log.len()));
}

#[test]
fn a_refused_call_keeps_the_count() {
    for log in [vec![], of_each_kind(100).concat()] {
        for kind in [0, 4, 8, 255, 256, 261, 0x0600_0000, u32::MAX] {
            refused(&log, 0, kind, 0, WrongKind);
            refused(&log, 3000, kind, 1, WrongKind);
        }
        for (kind, bytes, _) in KINDS {
            refused(&log, 0, kind, bytes + 1, WrongLength);
            refused(&log, 3000, kind, bytes - 1, WrongLength);
            refused(&log, 0, kind, bytes, NoRoom);
            refused(&log, 4 + bytes, kind, bytes, NoRoom);
        }
    }
}

#[test]
fn a_typed_entry_is_refused_for_want_of_room_alone() {
    let record = [0; 2049];
    for (body, bytes) in [
        (Body::Result(&record), 2054),
        (Body::Refusal(0), 6),
        (Body::Heard(0), 6),
    ] {
        let mut buffer = vec![SCRIBBLE; bytes - 1];
        let mut journal = Journal::new(&mut buffer);
        assert_eq!(journal.add(0, body), Err(NoRoom));
        assert_eq!((journal.used(), journal.unused().len()), (0, bytes - 1));
        assert_eq!(buffer, vec![SCRIBBLE; bytes - 1]);
    }
}

#[test]
fn a_new_journal_reads_nothing_of_its_buffer() {
    let log = of_each_kind(100).concat();
    let mut buffer = log.clone();
    let mut journal = Journal::new(&mut buffer);
    assert_eq!((journal.used(), journal.bytes()), (0, &[][..]));
    assert_eq!(journal.entries().next(), None);
    assert_eq!(journal.unused(), log);
}

#[test]
fn whole_runs_are_opened() {
    let log = of_each_kind(100).concat();
    for used in [0, 2054, 2060, 2066] {
        let mut buffer = in_buffer(&log, 4);
        let mut journal = Journal::open(&mut buffer, used).unwrap();
        assert_eq!((journal.used(), journal.bytes()), (used, &log[..used]));
        assert_eq!(journal.unused(), &in_buffer(&log, 4)[used..]);
    }
    assert_eq!(Journal::open(&mut [], 0).unwrap().used(), 0);
}

#[test]
fn what_is_no_log_is_not_opened() {
    for log in broken() {
        let mut buffer = in_buffer(&log, 10);
        let opened = Journal::open(&mut buffer, log.len());
        assert_eq!(opened.err(), Some(BrokenLog));
        assert_eq!(buffer, in_buffer(&log, 10));
    }
    let mut log = of_each_kind(100).concat();
    for used in [2067, 3000, usize::MAX] {
        assert_eq!(Journal::open(&mut log, used).err(), Some(BrokenLog));
    }
    for used in (1..2054).chain(2055..2060).chain(2061..2066) {
        assert_eq!(Journal::open(&mut log, used).err(), Some(BrokenLog));
    }
}

/// Sweeps, then adds a heard byte and a result, for which there is not always room.
fn a_day(journal: &mut Journal, day: u32) {
    journal.sweep(day);
    journal.add(day, Body::Heard(day as u8)).unwrap();
    let outcome = journal.add(day, Body::Result(&[day as u8; 2049]));
    assert_eq!(outcome.is_ok(), day % 7 < 2);
}

/// Kept in parts after every day, and never, it is the same log.
#[test]
fn a_journal_may_be_kept_elsewhere() {
    let (mut one, mut other) = ([0; 5000], [0; 5000]);
    let (mut journal, mut used) = (Journal::new(&mut one), 0);
    for day in 0..60 {
        a_day(&mut journal, day);
        let mut opened = Journal::open(&mut other, used).unwrap();
        a_day(&mut opened, day);
        (_, used) = opened.into_parts();
    }
    assert_eq!(journal.used(), used);
    assert_eq!(one, other);
}

/// Nothing of the log depends on the bytes behind the used ones.
#[test]
fn what_was_swept_may_be_cleared() {
    let mut buffer = in_buffer(&of_each_kind(100).concat(), 6);
    let mut journal = Journal::open(&mut buffer, 2066).unwrap();
    journal.sweep(131);
    let heard = written(7, 102, &body(1, 7));
    assert_eq!(journal.bytes(), heard);
    assert!(journal.unused().iter().any(|&byte| byte != 0));
    journal.unused().fill(0);
    assert!(journal.entries().eq([entry(&heard)]));
    journal.add(131, Body::Refusal(1)).unwrap();
    journal.sweep(192);
    assert_eq!(journal.used(), 0);
    assert_eq!(buffer[12..], [0; 2060]);
}

#[test]
fn a_journal_is_shown_without_its_bytes() {
    let mut buffer = of_each_kind(100).concat();
    let journal = Journal::open(&mut buffer, 2060).unwrap();
    let shown = format!("{journal:?}");
    assert_eq!(shown, "Journal { used: 2060, buffer_bytes: 2066 }");
}

#[test]
fn logs_of_their_own_are_written_by_threads() {
    std::thread::scope(|scope| {
        for seed in 0..4 {
            scope.spawn(move || {
                let mut buffer = [0; 600];
                let mut journal = Journal::new(&mut buffer);
                for day in 0..100 {
                    journal.add(day, Body::Heard(seed)).unwrap();
                }
                assert!(journal
                    .entries()
                    .all(|entry| entry.body == Body::Heard(seed)));
            });
        }
    });
}
