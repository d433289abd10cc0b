//! Whatever is added and swept: the log holds what was accepted and not found too old, in order, and
//! an entry is accepted exactly if it fits behind those.
use super::format::{body, entry, in_buffer, written, KINDS};
use super::raw;
use hubqr::ffi::LogReply;
use hubqr::Refusal::{self, *};
use hubqr::{Entry, Journal};

/// Numbers without pattern, the same for the same seed.
struct Numbers(u64);

impl Numbers {
    fn below(&mut self, limit: usize) -> usize {
        self.0 ^= self.0 << 13;
        self.0 ^= self.0 >> 7;
        self.0 ^= self.0 << 17;
        (self.0 % limit as u64) as usize
    }
}

/// What the log should hold, and the bytes of its buffer.
struct Held {
    entries: Vec<Vec<u8>>,
    room: usize,
}

impl Held {
    fn used(&self) -> usize {
        self.entries.iter().map(Vec::len).sum()
    }

    /// What adding should answer.
    fn add(&mut self, kind: u32, day: u32, body: &[u8]) -> Result<(), Refusal> {
        let (_, bytes, _) = KINDS.into_iter().find(|k| k.0 == kind).ok_or(WrongKind)?;
        if body.len() != bytes {
            return Err(WrongLength);
        }
        if self.used() + 5 + bytes > self.room {
            return Err(NoRoom);
        }
        self.entries.push(written(kind, day, body));
        Ok(())
    }

    fn sweep(&mut self, day: u32) {
        let stays = |bytes: &Vec<u8>| {
            let (.., days) = KINDS[usize::from(bytes[0] - 5)];
            u64::from(day) < u64::from(entry(bytes).day) + u64::from(days)
        };
        self.entries.retain(stays);
    }
}

/// What step k adds: a kind and a body. Now and then the kind is none, or the body is too long for it.
fn drawn(numbers: &mut Numbers, k: usize) -> (u32, Vec<u8>) {
    let (kind, bytes, _) = KINDS[numbers.below(3)];
    match numbers.below(12) {
        0 => (numbers.below(5) as u32, body(bytes, k as u8)),
        1 => (kind, body(bytes + 1, k as u8)),
        _ => (kind, body(bytes, k as u8)),
    }
}

/// So many calls on a journal and by the archive, and after each the same entries in all three.
fn history(seed: u64, room: usize, steps: usize) {
    let mut numbers = Numbers(seed);
    let (mut held, mut lent, mut buffer) = (
        Held {
            entries: Vec::new(),
            room,
        },
        in_buffer(&[], room),
        in_buffer(&[], room),
    );
    let mut journal = Journal::new(&mut buffer);
    let (mut used, mut day) = (0, 0);
    for k in 0..steps {
        day += numbers.below(3) as u32;
        let reply = if numbers.below(8) == 0 {
            held.sweep(day);
            journal.sweep(day);
            raw::sweep(day, used, &mut lent)
        } else {
            let dated = day + 3 - numbers.below(7).min(day as usize + 3) as u32;
            let (kind, body) = drawn(&mut numbers, k);
            let expected = held.add(kind, dated, &body);
            assert_eq!(journal.add_bytes(kind, dated, &body), expected);
            let reply = raw::add(kind, dated, &body, used, &mut lent);
            assert_eq!(reply.number, expected.err().map_or(0, Refusal::number));
            reply
        };
        used = kept(reply, used);
        assert_eq!((journal.used(), used), (held.used(), held.used()));
        let expected: Vec<Entry> = held.entries.iter().map(|bytes| entry(bytes)).collect();
        assert!(journal.entries().eq(expected));
        assert_eq!(journal.bytes(), &lent[..used]);
    }
    assert_eq!(buffer, lent);
}

/// The used count that a caller hands to its next call: that of a refused one stays.
fn kept(reply: LogReply, used: usize) -> usize {
    match reply.number {
        0 => reply.used,
        _ => used,
    }
}

#[test]
fn the_log_holds_what_was_accepted_and_not_swept() {
    for (seed, room) in [(1, 0), (2, 6), (3, 17), (4, 2054), (5, 2065), (6, 9000)] {
        history(seed, room, 400);
    }
    for seed in 10..20 {
        history(seed, 20_000, 200);
    }
}
