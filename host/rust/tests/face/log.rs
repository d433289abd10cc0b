//! The log: what is added is written and read back, what is too old is swept, and what is refused
//! changes nothing.
mod adding;
mod format;
mod history;
mod keeping;
mod order;
mod raw;
mod reading;
mod sweeping;

use hubqr::ffi::{LogEntry, LogReply};
use hubqr::*;
use std::mem::{offset_of, size_of};

#[test]
fn structs_of_the_log_have_their_layout_in_c() {
    assert_eq!(size_of::<LogReply>(), 16);
    assert_eq!(
        (offset_of!(LogReply, number), offset_of!(LogReply, used)),
        (0, 8)
    );
    assert_eq!(size_of::<LogEntry>(), 40);
    assert_eq!(offset_of!(LogEntry, number), 0);
    assert_eq!(offset_of!(LogEntry, kind), 4);
    assert_eq!(offset_of!(LogEntry, day), 8);
    assert_eq!(offset_of!(LogEntry, body), 16);
    assert_eq!(offset_of!(LogEntry, body_len), 24);
    assert_eq!(offset_of!(LogEntry, next), 32);
}

#[test]
fn kinds_sizes_and_days_are_those_of_the_request() {
    assert_eq!([LOG_RESULT, LOG_REFUSAL, LOG_HEARD], [5, 6, 7]);
    assert_eq!(LOG_HEAD_BYTES, 5);
    assert_eq!(
        [LOG_RESULT_BYTES, LOG_REFUSAL_BYTES, LOG_HEARD_BYTES],
        [2054, 6, 6]
    );
    assert_eq!(
        [LOG_RESULT_DAYS, LOG_REFUSAL_DAYS, LOG_HEARD_DAYS],
        [7, 30, 90]
    );
}

#[test]
fn a_body_has_its_kind_its_days_and_its_bytes() {
    let record = [9; RESULT_RECORD_BYTES];
    for (body, kind, days, bytes) in [
        (Body::Result(&record), 5, 7, &record[..]),
        (Body::Refusal(17), 6, 30, &[17]),
        (Body::Heard(0), 7, 90, &[0]),
    ] {
        assert_eq!(
            (body.kind(), body.days(), body.bytes()),
            (kind, days, bytes)
        );
        for day in [0, 100, u32::MAX] {
            let entry = Entry { day, body };
            assert_eq!(entry.length(), 5 + bytes.len());
            assert_eq!(entry.swept_from(), u64::from(day) + u64::from(days));
        }
    }
}
