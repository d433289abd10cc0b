//! A buffer on both sides.

use std::fmt::Display;

use reference::log::{self, Entry, EntryKind, EntryReply, LogReply};
use reference::random::Random;

use super::{Call, Reply};
use crate::common::twin::{hexadecimal, Twin};
use crate::common::{engine, Case};

/// The same buffer on both sides. Every call is made on both; a difference in the reply or in any byte
/// of memory fails the test.
pub struct BothLog {
    case: Case,
    buffer: Twin<u8>,
    /// Makes what stands in and around the buffer, and around bodies.
    filler: Random,
}

impl BothLog {
    /// A buffer of that many bytes, all lent and filled at random.
    pub fn new(case: Case, bytes: usize) -> Self {
        let mut filler = Random::for_case(!case.seed, case.number);
        BothLog {
            case,
            buffer: Twin::new(bytes, || filler.byte()),
            filler,
        }
    }

    /// The same, with a log at its start.
    pub fn holding(case: Case, log: &[u8], bytes: usize) -> Self {
        let mut both = BothLog::new(case, bytes);
        both.buffer.fill(log);
        both
    }

    /// Lends that many bytes from now on.
    pub fn lend(&mut self, bytes: usize) {
        self.buffer.lend(bytes);
    }

    /// Puts bytes at the start of both buffers.
    pub fn fill(&mut self, bytes: &[u8]) {
        self.buffer.fill(bytes);
    }

    /// Writes other bytes behind the used ones of both buffers, as a host may.
    pub fn write_behind(&mut self, used: usize) {
        let mut bytes = self.bytes().to_vec();
        bytes[used..].fill_with(|| self.filler.byte());
        self.fill(&bytes);
    }

    /// The lent bytes, as the engine has them.
    pub fn bytes(&self) -> &[u8] {
        &self.buffer.contents()[..self.buffer.lent()]
    }

    /// Fails the test, naming the case and what is lent, unless the condition holds.
    pub fn require(&self, condition: bool, otherwise: impl Display) {
        if !condition {
            let bytes = self.bytes();
            let (lent, bytes) = (bytes.len(), hexadecimal(bytes));
            panic!("{otherwise}\n{}, {lent} bytes lent: {bytes}", self.case);
        }
    }

    /// Makes a call on both sides, and compares the replies.
    pub fn make(&mut self, call: &Call) -> Reply {
        let [engine, reference] = match *call {
            Call::Add {
                kind,
                day,
                ref body,
                used,
            } => self.add(kind, day, body, used).map(Reply::Log),
            Call::Sweep { day, used } => {
                let engine = engine::log_sweep(day, used, self.buffer.engine());
                let reference = log::sweep(day, used, self.buffer.reference());
                [engine, reference].map(Reply::Log)
            }
            Call::Next { at, used } => {
                let engine = engine::log_next(at, used, self.buffer.engine());
                let reference = log::next(at, used, self.buffer.reference());
                [engine, reference].map(Reply::Entry)
            }
        };
        self.require(
            engine == reference,
            format_args!("{call}: engine {engine:?}, reference {reference:?}"),
        );
        engine
    }

    /// Nothing in or around the body is written.
    fn add(&mut self, kind: u32, day: u32, body: &[u8], used: usize) -> [LogReply; 2] {
        let mut lent = Twin::new(body.len(), || self.filler.byte());
        lent.fill(body);
        let engine = engine::log_add(kind, day, lent.engine(), used, self.buffer.engine());
        let buffer = self.buffer.reference();
        let reference = log::add(kind, day, lent.reference(), used, buffer);
        let difference = lent.difference();
        self.require(difference.is_none(), format_args!("body: {difference:?}"));
        [engine, reference]
    }

    pub fn require_same_memory(&self) {
        let difference = self.buffer.difference();
        self.require(difference.is_none(), format_args!("buffer: {difference:?}"));
    }

    /// The entry that was read, with the body that stands in the buffer.
    pub fn entry(&self, reply: EntryReply) -> Entry {
        let kind = EntryKind::of(reply.kind).expect("both sides have read it");
        Entry {
            kind,
            day: reply.day,
            body: self.bytes()[reply.body..][..reply.body_len].to_vec(),
        }
    }
}
