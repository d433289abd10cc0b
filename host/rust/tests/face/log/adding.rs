//! Adding: the entry stands behind the used bytes, and all other bytes are as before.
use super::format::{body, in_buffer, of_each_kind, written, DAYS, KINDS, SCRIBBLE};
use super::raw;
use hubqr::{Body, Journal, Refusal::NoRoom};

/// Bytes behind what is added that are to stay.
const BEHIND: usize = 9;

/// Adds to this log by the archive and by a journal, and compares the whole buffer.
fn adds(log: &[u8], kind: u32, day: u32, body: &[u8]) {
    let entry = written(kind, day, body);
    let expected = in_buffer(&[log, &entry].concat(), BEHIND);
    let before = in_buffer(log, entry.len() + BEHIND);
    let used = log.len() + entry.len();

    let mut buffer = before.clone();
    let reply = raw::add(kind, day, body, log.len(), &mut buffer);
    assert_eq!(reply, raw::accepted(used));
    assert_eq!(buffer, expected);

    let mut buffer = before;
    let mut journal = Journal::open(&mut buffer, log.len()).unwrap();
    assert_eq!(journal.add_bytes(kind, day, body), Ok(()));
    assert_eq!((journal.used(), journal.bytes()), (used, &expected[..used]));
    assert_eq!(buffer, expected);
}

#[test]
fn kind_day_and_body_stand_behind_the_used_bytes() {
    let mut log = Vec::new();
    for day in DAYS {
        for (kind, bytes, _) in KINDS {
            let body = body(bytes, day as u8);
            adds(&log, kind, day, &body);
            log.extend(written(kind, day, &body));
        }
    }
}

#[test]
fn bodies_are_typed_or_bytes() {
    let record = body(2049, 3).try_into().unwrap();
    for (body, kind) in [
        (Body::Result(&record), 5),
        (Body::Refusal(4), 6),
        (Body::Heard(0xdf), 7),
    ] {
        let (mut typed, mut bytes) = ([SCRIBBLE; 3000], [SCRIBBLE; 3000]);
        let mut journal = Journal::new(&mut typed);
        journal.add(20_000, body).unwrap();
        let entry = journal.entries().next().unwrap();
        assert_eq!((entry.day, entry.body), (20_000, body));
        let mut other = Journal::new(&mut bytes);
        other.add_bytes(kind, 20_000, body.bytes()).unwrap();
        assert_eq!(typed, bytes);
    }
}

/// Results that are none, numbers that name no refusal, and heard bytes of antennas unheard.
#[test]
fn bodies_are_stored_untested() {
    for byte in 0..=u8::MAX {
        adds(&[], 6, 100, &[byte]);
        adds(&[], 7, 100, &[byte]);
    }
    for byte in [0, 1, 3, 5, 7, 0xff] {
        adds(&of_each_kind(100).concat(), 5, 100, &[byte; 2049]);
    }
}

/// An entry fits exactly, and one byte less is no room.
#[test]
fn an_entry_may_end_where_the_buffer_ends() {
    for log in [vec![], of_each_kind(100).concat()] {
        for (kind, bytes, _) in KINDS {
            let (body, used) = (body(bytes, 1), log.len() + 5 + bytes);
            let mut buffer = in_buffer(&log, 5 + bytes);
            let reply = raw::add(kind, 7, &body, log.len(), &mut buffer);
            assert_eq!(reply, raw::accepted(used));
            assert_eq!(buffer, [&log[..], &written(kind, 7, &body)].concat());
            for room in [0, 1, 4, 5, bytes, 4 + bytes] {
                let mut buffer = in_buffer(&log, room);
                let reply = raw::add(kind, 7, &body, log.len(), &mut buffer);
                assert_eq!(reply, raw::refused(NoRoom), "{room}");
                assert_eq!(buffer, in_buffer(&log, room));
            }
        }
    }
}

/// What stands behind the used bytes counts for nothing, also if it looks like entries, or like none.
#[test]
fn bytes_behind_the_used_ones_are_not_read() {
    let log = of_each_kind(100).concat();
    for behind in [&log[..], &[5; 100], &[0; 100], &[0xff; 100]] {
        let mut buffer = [&log[..], behind].concat();
        let reply = raw::add(7, 101, &[1], log.len(), &mut buffer);
        assert_eq!(reply, raw::accepted(log.len() + 6));
        let added = written(7, 101, &[1]);
        assert_eq!(buffer, [&log, &added[..], &behind[6..]].concat());
    }
}

/// What was swept long ago stays beside what is added.
#[test]
fn adding_does_not_sweep() {
    let mut log = of_each_kind(0).concat();
    for day in [7, 30, 90, 20_000, u32::MAX] {
        adds(&log, 7, day, &[1]);
        log.extend(written(7, day, &[1]));
    }
}
