//! The calls of the log, made on the engine and on the reference.

mod both;
mod call;
mod face;
mod laws;

pub use both::BothLog;
pub use call::{Call, Made, Reply};

use std::collections::BTreeMap;

use reference::log::{Entry, EntryReply};

use super::refusals;

/// What the calls of a test came to.
#[derive(Debug, Default)]
pub struct Seen {
    pub added: u64,
    /// The sweeps, and those of them after which fewer bytes were used.
    pub sweeps: u64,
    pub freeing: u64,
    /// The entries that were read, and how often the end was met.
    pub read: u64,
    pub ends: u64,
    /// How often each number was answered.
    pub refusals: BTreeMap<u8, u64>,
}

impl Seen {
    /// Makes a call on both sides and by the host crate, and holds it to the laws.
    pub fn make(&mut self, log: &mut BothLog, call: Call) -> Made {
        let before = log.bytes().to_vec();
        let reply = log.make(&call);
        log.require_same_memory();
        let after = log.bytes().to_vec();
        let made = Made {
            call,
            reply,
            before,
            after,
        };
        let complaint = laws::complaint(&made);
        log.require(
            complaint.is_none(),
            format_args!("{complaint:?}: {reply:?} to {}", made.call),
        );
        log.require(
            face::is_same(&made),
            format_args!("the host crate differs: {}", made.call),
        );
        self.count(&made.call, reply);
        made
    }

    /// The entries in the order in which they are read from 0 on, or none where reading is refused.
    pub fn read_back(&mut self, log: &mut BothLog, used: usize) -> Option<Vec<Entry>> {
        let (mut entries, mut at) = (Vec::new(), 0);
        let whole = loop {
            let Reply::Entry(reply) = log.make(&Call::Next { at, used }) else {
                unreachable!("reading answers an entry");
            };
            self.count_read(reply);
            if reply.number != 0 || at == used {
                break reply.number == 0;
            }
            log.require(reply.next > at, "reading does not go on");
            entries.push(log.entry(reply));
            at = reply.next;
        };
        log.require_same_memory();
        whole.then_some(entries)
    }

    pub fn print(&self, test: &str) {
        let accepted = self.added + self.sweeps + self.read + self.ends;
        let calls = accepted + self.refusals.values().sum::<u64>();
        let Seen {
            added,
            sweeps,
            freeing,
            read,
            ends,
            ..
        } = self;
        let refusals = refusals::listed(&self.refusals);
        println!(
            "\n{test}: {calls} calls, {added} entries added, {sweeps} sweeps, {freeing} of which freed \
             bytes, {read} entries and {ends} ends read{refusals}"
        );
    }

    /// Fails the test unless these are the numbers that were answered.
    pub fn assert_numbers(&self, numbers: &[u8]) {
        refusals::assert_numbers(&self.refusals, numbers);
    }

    fn count(&mut self, call: &Call, reply: Reply) {
        match (call, reply) {
            (_, Reply::Entry(reply)) => self.count_read(reply),
            (_, Reply::Log(reply)) if reply.number != 0 => self.count_refusal(reply.number),
            (Call::Sweep { used, .. }, Reply::Log(reply)) => {
                self.sweeps += 1;
                self.freeing += u64::from(reply.used < *used);
            }
            _ => self.added += 1,
        }
    }

    fn count_read(&mut self, reply: EntryReply) {
        match (reply.number, reply.kind) {
            (0, 0) => self.ends += 1,
            (0, _) => self.read += 1,
            (number, _) => self.count_refusal(number),
        }
    }

    fn count_refusal(&mut self, number: u8) {
        *self.refusals.entry(number).or_default() += 1;
    }
}
