//! The order of the tests: 16, 1, 2 and 17 of adding, and 16 alone of sweeping. A refused call leaves
//! every byte as it was.
use super::format::{body, broken, in_buffer, of_each_kind, KINDS};
use super::raw;
use hubqr::ffi;
use hubqr::Refusal::{self, *};
use std::ptr;

/// Kinds that are none. 261 is 256 more than 5.
const NO_KINDS: [u32; 12] = [
    0,
    1,
    2,
    3,
    4,
    8,
    255,
    256,
    261,
    0x0500_0000,
    (1 << 31) + 5,
    u32::MAX,
];

/// A place for each length of a body that fits no kind, or fits another.
fn wrong_lengths(kind: u32) -> impl Iterator<Item = usize> {
    let lengths = [0, 1, 2, 5, 6, 257, 2048, 2049, 2050, 2054];
    let fits = move |bytes: usize| KINDS.iter().any(|&(k, b, _)| (k, b) == (kind, bytes));
    lengths.into_iter().filter(move |&bytes| !fits(bytes))
}

/// Adding is refused by the archive, which answers 0 for the used count and leaves the buffer.
fn refuses(kind: u32, bytes: usize, used: usize, buffer: &[u8], with: Refusal) {
    let mut lent = buffer.to_vec();
    let reply = raw::add(kind, 20_000, &body(bytes, 1), used, &mut lent);
    assert_eq!(reply, raw::refused(with), "{kind} {bytes} {used}");
    assert_eq!(lent, buffer);
}

/// Both calls refuse this used count, whatever the entry is and however much room there is.
fn broken_for_all(used: usize, buffer: &[u8]) {
    for kind in [5, 6, 7, 0, 261] {
        for bytes in [0, 1, 2, 2049] {
            refuses(kind, bytes, used, buffer, BrokenLog);
        }
    }
    for day in [0, 107, u32::MAX] {
        let mut lent = buffer.to_vec();
        assert_eq!(raw::sweep(day, used, &mut lent), raw::refused(BrokenLog));
        assert_eq!(lent, buffer);
    }
}

#[test]
fn a_used_count_may_not_pass_the_buffer() {
    for log in [vec![], of_each_kind(100).concat()] {
        let bytes = log.len();
        for used in [bytes + 1, bytes + 6, usize::MAX - 5, usize::MAX] {
            broken_for_all(used, &log);
        }
    }
}

#[test]
fn used_bytes_have_to_be_a_whole_run() {
    for log in broken() {
        broken_for_all(log.len(), &log);
        broken_for_all(log.len(), &in_buffer(&log, 3000));
    }
}

/// Each count below that of three entries ends on one, or it is refused.
#[test]
fn a_used_count_has_to_end_on_an_entry() {
    let log = of_each_kind(100).concat();
    for used in 0..=log.len() {
        let mut lent = in_buffer(&log, 6);
        let expected = match used {
            0 | 2054 | 2060 | 2066 => raw::accepted(used),
            _ => raw::refused(BrokenLog),
        };
        assert_eq!(raw::sweep(0, used, &mut lent), expected);
        assert_eq!(lent, in_buffer(&log, 6));
    }
}

#[test]
fn then_the_kind_is_tested() {
    for log in [vec![], of_each_kind(100).concat()] {
        for room in [0, 5, 3000] {
            for kind in NO_KINDS {
                for bytes in [0, 1, 2, 2049] {
                    refuses(kind, bytes, log.len(), &in_buffer(&log, room), WrongKind);
                }
            }
        }
    }
}

#[test]
fn then_the_length_of_the_body() {
    for log in [vec![], of_each_kind(100).concat()] {
        for room in [0, 5, 3000] {
            for (kind, ..) in KINDS {
                for bytes in wrong_lengths(kind) {
                    refuses(kind, bytes, log.len(), &in_buffer(&log, room), WrongLength);
                }
            }
        }
    }
}

#[test]
fn and_last_the_room() {
    for log in [vec![], of_each_kind(100).concat()] {
        for (kind, bytes, _) in KINDS {
            for room in [0, 5, 4 + bytes] {
                refuses(kind, bytes, log.len(), &in_buffer(&log, room), NoRoom);
            }
        }
    }
}

/// No body is one of no bytes, and no buffer is a log of no entries.
#[test]
fn null_pointers_stand_for_no_bytes() {
    let none = ptr::null_mut();
    let add = |kind, bytes: &[u8], used| {
        // SAFETY: a pointer may be null where its length is 0; the others are those of slices.
        unsafe { ffi::hubqr_log_add(kind, 1, bytes.as_ptr(), bytes.len(), used, none, 0) }
    };
    assert_eq!(add(7, &[1], 0), raw::refused(NoRoom));
    assert_eq!(add(7, &[1, 2], 0), raw::refused(WrongLength));
    assert_eq!(add(8, &[1, 2], 0), raw::refused(WrongKind));
    assert_eq!(add(8, &[1, 2], 1), raw::refused(BrokenLog));
    let mut buffer = [0; 6];
    let (bytes, length) = (buffer.as_mut_ptr(), buffer.len());
    // SAFETY: as above.
    let (no_body, swept, past, read) = unsafe {
        (
            ffi::hubqr_log_add(7, 1, ptr::null(), 0, 0, bytes, length),
            ffi::hubqr_log_sweep(1, 0, none, 0),
            ffi::hubqr_log_sweep(1, 1, none, 0),
            ffi::hubqr_log_next(0, 0, none, 0),
        )
    };
    assert_eq!(no_body, raw::refused(WrongLength));
    assert_eq!((swept, past), (raw::accepted(0), raw::refused(BrokenLog)));
    assert_eq!((read, buffer), (raw::end(0), [0; 6]));
}
