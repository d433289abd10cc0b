//! What a test itself keeps of a history, to hold each call of it to the laws.

use reference::log::{Entry, EntryKind};
use reference::random::Random;

use crate::common::log::{BothLog, Call, Made, Reply, Seen};
use crate::logs::{ends, stays, HEAD};

#[derive(Debug)]
pub struct Book {
    /// The entries that were accepted and that no sweep since has found too old.
    entries: Vec<Entry>,
    /// The used count that the last accepted call answered.
    used: usize,
    /// Bytes of the buffer, and how many of them were used at most.
    room: usize,
    furthest: usize,
    /// Entries that were dropped, and such as were added where others had stood.
    pub dropped: u64,
    pub again: u64,
}

impl Book {
    pub fn new(room: usize) -> Self {
        Book {
            entries: Vec::new(),
            used: 0,
            room,
            furthest: 0,
            dropped: 0,
            again: 0,
        }
    }

    pub fn room(&self) -> usize {
        self.room
    }

    pub fn used(&self) -> usize {
        self.used
    }

    pub fn last(&self) -> Option<&Entry> {
        self.entries.last()
    }

    /// A used count that is refused: within an entry of the log, or beyond the buffer.
    pub fn broken_count(&self, random: &mut Random) -> usize {
        let within = random.below(self.used + 1);
        if ends(&self.entries).contains(&within) {
            let beyond = [1, 2, 6, 1 << 16, 1 << 32, usize::MAX - self.room];
            self.room + random.choose(&beyond)
        } else {
            within
        }
    }

    /// Enters a call, which is handed the log's used count or a broken one. Only the latter is refused
    /// with 16, and no sweep with another number. An entry of a known kind and length is accepted exactly
    /// if it fits behind those that are there.
    pub fn enter(&mut self, log: &BothLog, made: &Made) {
        let due = self.due(&made.call);
        let Made { call, reply, .. } = made;
        log.require(
            reply.number() == due,
            format_args!("{due} is due: {reply:?} to {call}"),
        );
        if due != 0 {
            return;
        }
        match call {
            Call::Add {
                kind, day, body, ..
            } => {
                let kind = EntryKind::of(*kind).expect("0 is due for kinds that there are");
                let (day, body) = (*day, body.clone());
                self.entries.push(Entry { kind, day, body });
                self.again += u64::from(self.used < self.furthest);
            }
            Call::Sweep { day, .. } => {
                let before = self.entries.len();
                self.entries.retain(|entry| stays(entry, *day));
                self.dropped += (before - self.entries.len()) as u64;
            }
            Call::Next { .. } => {}
        }
        let lengths = self.entries.iter().map(|entry| HEAD + entry.body.len());
        self.used = lengths.sum();
        self.furthest = self.furthest.max(self.used);
        log.require(
            *reply == Reply::used(self.used),
            format_args!("{} are used: {reply:?} to {call}", self.used),
        );
    }

    /// The log that is read from 0 on is what the book says.
    pub fn require_read_back(&self, log: &mut BothLog, seen: &mut Seen) {
        let read = seen.read_back(log, self.used);
        log.require(
            read.as_ref() == Some(&self.entries),
            format_args!("{read:?} is read, {:?} is due", self.entries),
        );
    }

    fn due(&self, call: &Call) -> u8 {
        match call {
            _ if call.used() != self.used => 16,
            Call::Add { kind, body, .. } => match (*kind, body.len()) {
                (5, 2_049) | (6 | 7, 1) if self.used + HEAD + body.len() <= self.room => 0,
                (5, 2_049) | (6 | 7, 1) => 17,
                (5..=7, _) => 2,
                _ => 1,
            },
            _ => 0,
        }
    }
}
