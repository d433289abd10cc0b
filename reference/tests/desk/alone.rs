//! A sector without the desk: the engine's own Load, Run and Fetch alone, with the turns that the
//! desk granted. A matrix that comes early is kept here until the one before is fetched.

use hubqr::Job;
use reference::desk::{DeskReply, SECTORS};

use crate::common::desk::role::OPERATOR;
use crate::common::desk::{BothDesk, Call};
use crate::steps::Step;

/// One sector's area and job, as they are when nobody else is there.
#[derive(Clone)]
pub struct Alone {
    sector: usize,
    area: Vec<i32>,
    job: Job,
    heard: u8,
    loaded: bool,
    /// The record that came early.
    early: Option<Vec<u8>>,
}

impl Alone {
    /// Every sector before it is loaded for the first time, with the words that stand in its area.
    pub fn all(both: &BothDesk) -> [Alone; SECTORS] {
        std::array::from_fn(|sector| Alone {
            sector,
            area: both.words(sector).to_vec(),
            job: Job { turn: 120, made: 0 },
            heard: 0,
            loaded: false,
            early: None,
        })
    }

    /// Makes an accepted call of the sector without the desk. Only after the operator's Fetch is the
    /// matrix loaded that came early.
    pub fn make(&mut self, both: &BothDesk, step: &Step, reply: &DeskReply) {
        match &step.call {
            Call::HandIn { record, .. } => {
                if self.job.is_finished() && self.early.is_none() {
                    self.load(record);
                } else {
                    self.early = Some(record.clone());
                }
                let stand = (reply.job.turn, reply.job.made, reply.heard);
                let same = stand == (self.job.turn, self.job.made, self.heard);
                both.require(same, "alone, another answer to a hand-in");
            }
            Call::Run { .. } => {
                let ran = hubqr::run(self.job, reply.count as u16, &mut self.area);
                let ran = ran.expect("the desk accepted the job");
                both.require(ran.count == reply.count, "alone, fewer turns");
                let clamps = (ran.clamps.r, ran.clamps.q);
                let same = clamps == (reply.clamps.r, reply.clamps.q);
                both.require(same, "alone, other clamps");
                self.job = ran.job;
            }
            Call::Fetch { .. } => {
                let mut result = [0; hubqr::RESULT_RECORD_BYTES];
                let fetched = hubqr::fetch(self.job, &self.area, &mut result);
                let same = fetched.is_ok() && both.fetched() == result;
                both.require(same, "alone, another result");
                let early = self.early.take_if(|_| step.role == OPERATOR);
                if let Some(record) = early {
                    self.load(&record);
                }
            }
            Call::Begin | Call::SetShares { .. } | Call::Heard { .. } => {}
        }
    }

    fn load(&mut self, record: &[u8]) {
        let loaded = hubqr::load(record, &mut self.area);
        let loaded = loaded.expect("the desk accepted the record");
        (self.job, self.heard, self.loaded) = (loaded.job, loaded.heard, true);
    }

    /// What the desk has of the sector is what it would have alone.
    pub fn require_same(&self, both: &BothDesk) {
        let seat = both.desk().seats[self.sector];
        let Job { turn, made } = self.job;
        let same = (seat.job.turn, seat.job.made, seat.heard) == (turn, made, self.heard);
        both.require(same, "alone, another job or heard byte");
        let waits = (seat.waits == 1).then(|| seat.record.to_vec());
        let same = seat.waits <= 1 && waits == self.early;
        both.require(same, "alone, another matrix came early");
        let same = both.words(self.sector) == self.area;
        both.require(same, "alone, another area");
    }

    /// Whether a Fetch with enough room has to be accepted.
    pub fn is_worked(&self) -> bool {
        self.loaded && self.job.is_finished()
    }
}
