//! What a test itself keeps of a history, to hold each call of it to the laws.

use reference::desk::{Desk, DeskReply, FIRST_SHARE, SECTORS};

use crate::alone::Alone;
use crate::common::desk::{BothDesk, Call};
use crate::shares::{total, Shares};
use crate::steps::{Areas, Step};

pub struct Book {
    /// The shares that were set last, and those that the round began with.
    set: Shares,
    begun: Shares,
    /// The turns granted to each sector in the round.
    granted: [u32; SECTORS],
    /// The record of each sector's last hand-in that was accepted, and the heard byte of its last load.
    handed_in: [Option<Vec<u8>>; SECTORS],
    heard: [u8; SECTORS],
    /// The sectors without the desk, where each has its own area.
    alone: Option<[Alone; SECTORS]>,
}

impl Book {
    pub fn new(both: &BothDesk, areas: Areas) -> Self {
        let alone = (areas == Areas::Own).then(|| Alone::all(both));
        Book {
            set: [FIRST_SHARE; SECTORS],
            begun: [FIRST_SHARE; SECTORS],
            granted: [0; SECTORS],
            handed_in: Default::default(),
            heard: [0; SECTORS],
            alone,
        }
    }

    /// Holds one call, which was handed a desk, to the laws.
    pub fn enter(&mut self, both: &BothDesk, handed: &Desk, step: &Step, reply: &DeskReply) {
        self.enter_round(both, &step.call, reply);
        if reply.number == 0 {
            self.enter_matrices(both, handed, step);
        }
        self.require_matrices(both);
        let Some(alone) = &mut self.alone else { return };
        if let Some(alone) = step.call.sector().and_then(|s| alone.get_mut(s as usize)) {
            if reply.number == 0 {
                alone.make(both, step, reply);
            }
            let wrong = reply.number == 8 && alone.is_worked();
            both.require(!wrong, "a worked matrix was refused");
        }
        alone.iter().for_each(|alone| alone.require_same(both));
    }

    /// What a sector was granted in the round and what it has left make its share when the round
    /// began. Neither the shares of all nor the turns granted to all are ever more than 120.
    fn enter_round(&mut self, both: &BothDesk, call: &Call, reply: &DeskReply) {
        match call {
            Call::Begin if reply.number == 0 => {
                (self.begun, self.granted) = (self.set, [0; SECTORS]);
            }
            Call::SetShares { shares } if reply.number == 0 => self.set = *shares,
            Call::Run { sector, .. } if reply.number == 0 => {
                self.granted[*sector as usize] += reply.count;
            }
            _ => {}
        }
        for (k, seat) in both.desk().seats.iter().enumerate() {
            both.require(seat.share == self.set[k], "a sector has another share");
            let made = self.granted[k] + u32::from(seat.left) == self.begun[k].into();
            both.require(made, "a sector has another number of turns left");
        }
        let shares = both.desk().seats.map(|seat| seat.share);
        both.require(total(&shares) <= 120, "the shares are above 120 in total");
        let granted: u32 = self.granted.iter().sum();
        both.require(granted <= 120, "a round had more than 120 turns");
    }

    /// An accepted call. Load accepts every record that is handed in, and so every one that waits.
    fn enter_matrices(&mut self, both: &BothDesk, handed: &Desk, step: &Step) {
        let Some(sector) = step.call.sector() else {
            return;
        };
        if let Call::HandIn { record, .. } = &step.call {
            both.require(heard(record).is_some(), "a record that Load refuses");
            self.handed_in[sector as usize] = Some(record.clone());
        }
        if let Some(heard) = step.loads(handed).and_then(|record| heard(&record)) {
            self.heard[sector as usize] = heard;
        }
    }

    /// A sector's heard byte is that of the matrix last loaded, and changes with nothing else. What
    /// waits is what was handed in last.
    fn require_matrices(&self, both: &BothDesk) {
        for (k, seat) in both.desk().seats.iter().enumerate() {
            both.require(seat.heard == self.heard[k], "another heard byte");
            let handed_in = self.handed_in[k].as_deref() == Some(&seat.record);
            let kept = seat.waits == 0 || (seat.waits == 1 && handed_in);
            both.require(kept, "another matrix waits");
        }
    }
}

/// The heard byte that Load answers, if it accepts the record.
fn heard(record: &[u8]) -> Option<u8> {
    let loaded = hubqr::load(record, &mut [0; hubqr::AREA_WORDS]);
    loaded.ok().map(|loaded| loaded.heard)
}
