//! Memory that is lent in other ways: from nowhere, and at every alignment.

use std::ptr;

use hubqr::ffi::{hubqr_log_add, hubqr_log_next, hubqr_log_sweep, LogEntry, LogReply};
use reference::log::{self, EntryKind};
use reference::random::Random;

use crate::logs::entry;

const LOG: [u8; 12] = [7, 0, 0, 78, 32, 5, 6, 0, 0, 78, 33, 6];

/// What is read at the end of a log of no entries.
const NOTHING: LogEntry = LogEntry {
    number: 0,
    kind: 0,
    day: 0,
    body: 0,
    body_len: 0,
    next: 0,
};

/// A pointer may be null where its length is 0.
#[test]
fn no_bytes_from_nowhere() {
    let body = [0xFF_u8; 2_049];
    let (nowhere, some) = ((ptr::null(), 0), |bytes| (body.as_ptr(), bytes));
    let added = [
        (9, nowhere, 0, 1),
        (5, nowhere, 0, 2),
        (6, nowhere, 0, 2),
        (7, nowhere, 0, 2),
        (9, nowhere, 1, 16),
        (7, some(1), 1, 16),
        (7, some(1), usize::MAX, 16),
        (7, some(1), 0, 17),
        (5, some(2_049), 0, 17),
    ];
    for (kind, (body, bytes), used, number) in added {
        let none = ptr::null_mut();
        // SAFETY: a pointer is null where its length is 0, and else it comes with its length from a
        // live slice, which is only read.
        let reply = unsafe { hubqr_log_add(kind, 7, body, bytes, used, none, 0) };
        assert_eq!(reply, LogReply { number, used: 0 }, "kind {kind}");
    }
    for (used, number) in [(0, 0), (1, 16), (6, 16), (usize::MAX, 16)] {
        // SAFETY: as above.
        let reply = unsafe { hubqr_log_sweep(7, used, ptr::null_mut(), 0) };
        assert_eq!(reply, LogReply { number, used: 0 }, "{used} used");
    }
    for (at, used, number) in [(0, 0, 0), (1, 0, 16), (0, 1, 16), (6, 6, 16)] {
        // SAFETY: as above.
        let entry = unsafe { hubqr_log_next(at, used, ptr::null(), 0) };
        assert_eq!(entry, LogEntry { number, ..NOTHING }, "{at} of {used}");
    }
    println!("\nNo buffer: {} calls", added.len() + 8);
}

/// A body of no bytes is none of any kind, even where the buffer has room.
#[test]
fn no_body_from_nowhere() {
    let refused = [
        (5, 12, 2),
        (6, 0, 2),
        (7, 6, 2),
        (0, 12, 1),
        (261, 0, 1),
        (7, 5, 16),
    ];
    for (kind, used, number) in refused {
        let mut buffer = [0xEE; 2_100];
        buffer[..12].copy_from_slice(&LOG);
        let (before, none) = (buffer, ptr::null());
        let (lent, bytes) = (buffer.as_mut_ptr(), buffer.len());
        // SAFETY: the body is null and has no byte, and the buffer is a live slice.
        let reply = unsafe { hubqr_log_add(kind, 7, none, 0, used, lent, bytes) };
        assert_eq!(reply, LogReply { number, used: 0 }, "kind {kind}");
        assert_eq!(buffer, before, "kind {kind}");
    }
    println!("\nNo body: {} calls", refused.len());
}

/// The same calls on the engine's memory and on the reference's, from one place of each on.
struct Aligned {
    engine: Vec<u8>,
    reference: Vec<u8>,
    start: usize,
    used: usize,
}

impl Aligned {
    const BYTES: usize = 6_200;

    fn new(start: usize, random: &mut Random) -> Self {
        let bytes = start + Self::BYTES + 16;
        let engine: Vec<u8> = (0..bytes).map(|_| random.byte()).collect();
        Aligned {
            reference: engine.clone(),
            engine,
            start,
            used: 0,
        }
    }

    /// What is lent to the engine, and to the reference.
    fn lent(&mut self) -> [&mut [u8]; 2] {
        let memory = [&mut self.engine, &mut self.reference];
        memory.map(|bytes| &mut bytes[self.start..][..Self::BYTES])
    }

    /// Adds an entry whose body stands at a place of other memory.
    fn add(&mut self, kind: EntryKind, day: u32, body_at: usize, random: &mut Random) {
        let entry = entry(kind, day, random);
        let mut memory = vec![0; body_at];
        memory.extend(&entry.body);
        let (kind, body) = (kind.number().into(), &memory[body_at..]);
        let (used, [engine, reference]) = (self.used, self.lent());
        let (lent, bytes) = (engine.as_mut_ptr(), engine.len());
        let due = log::add(kind, day, body, used, reference);
        let (body, body_len) = (body.as_ptr(), body.len());
        // SAFETY: body and buffer are live slices that do not overlap.
        let reply = unsafe { hubqr_log_add(kind, day, body, body_len, used, lent, bytes) };
        self.same(reply, due);
    }

    fn sweep(&mut self, day: u32) {
        let (used, [engine, reference]) = (self.used, self.lent());
        let (lent, bytes) = (engine.as_mut_ptr(), engine.len());
        let due = log::sweep(day, used, reference);
        // SAFETY: the buffer is a live slice.
        let reply = unsafe { hubqr_log_sweep(day, used, lent, bytes) };
        self.same(reply, due);
    }

    fn same(&mut self, reply: LogReply, due: log::LogReply) {
        assert_eq!((reply.number, reply.used), (0, due.used));
        assert_eq!(self.engine, self.reference);
        self.used = due.used;
    }
}

#[test]
fn body_and_buffer_at_every_alignment() {
    let mut calls = 0;
    for place in 0..256 {
        let (start, body_at) = (place / 16, place % 16);
        let mut random = Random::for_case(1582, place as u64);
        let mut log = Aligned::new(start, &mut random);
        let entries = [
            (EntryKind::Heard, 1),
            (EntryKind::Result, 100),
            (EntryKind::Refusal, 71),
            (EntryKind::Result, 101),
        ];
        for (kind, day) in entries {
            log.add(kind, day, body_at, &mut random);
        }
        for day in [106, 107] {
            log.sweep(day);
            log.add(EntryKind::Result, day, body_at, &mut random);
        }
        log.sweep(108);
        calls += 9;
    }
    println!("\nBody and buffer at every alignment: {calls} calls");
}
