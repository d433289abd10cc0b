//! The archive's own calls of the log, in which the used count and the place are any numbers.
use hubqr::ffi::{self, LogEntry, LogReply};
use hubqr::Refusal;

pub fn add(kind: u32, day: u32, body: &[u8], used: usize, buffer: &mut [u8]) -> LogReply {
    let (body, length) = (body.as_ptr(), body.len());
    let (buffer, bytes) = (buffer.as_mut_ptr(), buffer.len());
    // SAFETY: pointers and lengths are those of slices, which do not overlap.
    unsafe { ffi::hubqr_log_add(kind, day, body, length, used, buffer, bytes) }
}

pub fn sweep(day: u32, used: usize, buffer: &mut [u8]) -> LogReply {
    let (buffer, bytes) = (buffer.as_mut_ptr(), buffer.len());
    // SAFETY: the pointer and the length are those of a slice.
    unsafe { ffi::hubqr_log_sweep(day, used, buffer, bytes) }
}

pub fn next(at: usize, used: usize, buffer: &[u8]) -> LogEntry {
    // SAFETY: the pointer and the length are those of a slice.
    unsafe { ffi::hubqr_log_next(at, used, buffer.as_ptr(), buffer.len()) }
}

/// What an accepted add or sweep answers.
pub fn accepted(used: usize) -> LogReply {
    LogReply { number: 0, used }
}

/// What a refused one answers.
pub fn refused(with: Refusal) -> LogReply {
    LogReply {
        number: with.number(),
        used: 0,
    }
}

/// What a refused reading answers.
pub fn no_entry(with: Refusal) -> LogEntry {
    LogEntry {
        number: with.number(),
        ..end(0)
    }
}

/// What reading answers at the end of the used bytes.
pub fn end(used: usize) -> LogEntry {
    LogEntry {
        number: 0,
        kind: 0,
        day: 0,
        body: 0,
        body_len: 0,
        next: used,
    }
}
