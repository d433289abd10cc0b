//! The calls of the log as values, and what they answer.

use std::fmt::{self, Display};

use reference::log::{Entry, EntryReply, LogReply};

use crate::common::twin::hexadecimal;

/// A call, with what is handed over beside the buffer.
#[derive(Debug, Clone)]
pub enum Call {
    Add {
        kind: u32,
        day: u32,
        body: Vec<u8>,
        used: usize,
    },
    Sweep {
        day: u32,
        used: usize,
    },
    Next {
        at: usize,
        used: usize,
    },
}

impl Call {
    /// Adds an entry.
    pub fn add(entry: &Entry, used: usize) -> Call {
        Call::Add {
            kind: entry.kind.number().into(),
            day: entry.day,
            body: entry.body.clone(),
            used,
        }
    }

    /// The used count that is handed over.
    pub fn used(&self) -> usize {
        match *self {
            Call::Add { used, .. } | Call::Sweep { used, .. } | Call::Next { used, .. } => used,
        }
    }
}

impl Display for Call {
    fn fmt(&self, f: &mut fmt::Formatter) -> fmt::Result {
        match self {
            Call::Add {
                kind, day, body, ..
            } => {
                let (bytes, body) = (body.len(), hexadecimal(body));
                write!(
                    f,
                    "adding kind {kind} of day {day} with {bytes} bytes, {body},"
                )?;
            }
            Call::Sweep { day, .. } => write!(f, "a sweep on day {day}")?,
            Call::Next { at, .. } => write!(f, "reading at {at}")?,
        }
        write!(f, " with {} bytes used", self.used())
    }
}

/// What a call answers: the used count, or an entry.
#[derive(Debug, Clone, Copy, PartialEq, Eq)]
pub enum Reply {
    Log(LogReply),
    Entry(EntryReply),
}

impl Reply {
    /// That of an accepted call that adds or sweeps.
    pub fn used(used: usize) -> Reply {
        Reply::Log(LogReply { number: 0, used })
    }

    pub fn number(self) -> u8 {
        match self {
            Reply::Log(reply) => reply.number,
            Reply::Entry(reply) => reply.number,
        }
    }
}

/// A call, what it answered, and the lent bytes before and after it.
#[derive(Debug)]
pub struct Made {
    pub call: Call,
    pub reply: Reply,
    pub before: Vec<u8>,
    pub after: Vec<u8>,
}
