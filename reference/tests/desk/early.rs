//! Other rules for the matrix that comes early. Where one of them gives another answer, or fills an
//! area from another record, the comparison tells it from those of the specification.

use reference::desk::{Desk, DeskReply, Seat, SECTORS};
use reference::job::Job;
use reference::records::{matrix_behind_kind, MATRIX_RECORD};

use crate::common::desk::Call;
use crate::common::noticed::Noticed;
use crate::steps::Step;

#[derive(Debug, Clone, Copy, PartialEq, Eq)]
enum Rule {
    /// A hand-in for an unfinished job is refused with 6.
    EarlyRefused,
    /// It is accepted and forgotten.
    EarlyDropped,
    /// It is loaded at once, and the work on the matrix before is lost.
    EarlyLoaded,
    /// It fills the area, and waits in the desk all the same.
    WaitingWrites,
    /// It gives the sector its heard byte.
    WaitingHeard,
    /// It answers its own heard byte, and the desk keeps that of the matrix before.
    WaitingAnswersHeard,
    /// It answers the job (0, 0).
    WaitingAnswersNew,
    /// It is not refused for a short area, which it has no use for.
    WaitingNeedsNoArea,
    /// It waits also where no antenna is heard.
    WaitingUnheard,
    /// One that is refused takes the place of the one that waits all the same.
    RefusedReplaces,
    /// Of two that wait the first is kept.
    FirstKept,
    /// With the job finished it is loaded, though one waits.
    LoadedWhileWaiting,
    /// With the job finished the one that waits is loaded, and this one takes its place.
    HandInBringsIn,
    /// A matrix that is loaded at once leaves its record in the desk.
    LoadedKept,
    /// A matrix that waits is loaded when the last turn is made.
    RunBringsIn,
    /// A refused Fetch brings it in, too.
    RefusedBringsIn,
    /// No Fetch brings it in.
    NeverBroughtIn,
    /// Once it is brought in, the job is left at its end.
    JobLeft,
    /// The heard byte is left as it was.
    HeardLeft,
    /// It goes on waiting, and is brought in again.
    WaitsLeft,
    /// Its bytes are wiped.
    RoomWiped,
    /// The record of the next sector is brought in.
    NextBroughtIn,
    /// The count is refilled when it is brought in.
    BringingInRefills,
    /// Bringing it in takes a turn.
    BringingInPays,
}

/// What a call for a sector comes to.
#[derive(Debug, Clone, Copy, PartialEq, Eq)]
struct Answer {
    number: u8,
    heard: u8,
    job: Job,
    /// The sector's seat at the desk that is answered.
    seat: Seat,
    /// The record that the area is filled from.
    fills: Option<Record>,
}

type Record = [u8; MATRIX_RECORD];

impl Rule {
    const ALL: [Rule; 24] = [
        Rule::EarlyRefused,
        Rule::EarlyDropped,
        Rule::EarlyLoaded,
        Rule::WaitingWrites,
        Rule::WaitingHeard,
        Rule::WaitingAnswersHeard,
        Rule::WaitingAnswersNew,
        Rule::WaitingNeedsNoArea,
        Rule::WaitingUnheard,
        Rule::RefusedReplaces,
        Rule::FirstKept,
        Rule::LoadedWhileWaiting,
        Rule::HandInBringsIn,
        Rule::LoadedKept,
        Rule::RunBringsIn,
        Rule::RefusedBringsIn,
        Rule::NeverBroughtIn,
        Rule::JobLeft,
        Rule::HeardLeft,
        Rule::WaitsLeft,
        Rule::RoomWiped,
        Rule::NextBroughtIn,
        Rule::BringingInRefills,
        Rule::BringingInPays,
    ];

    /// What a call comes to by this rule, where it is handed a desk and comes to something by the
    /// rules of the specification.
    fn answer(self, desk: &Desk, sector: usize, step: &Step, stated: Answer) -> Answer {
        let before = &desk.seats[sector];
        match (&step.call, stated.number) {
            (Call::HandIn { record, .. }, 0) if stated.fills.is_some() => self.load(record, stated),
            (Call::HandIn { record, .. }, 0) => self.wait(before, room(record), stated),
            (Call::HandIn { record, .. }, _) => self.refuse(before, record, stated),
            (Call::Run { .. }, 0) => self.run(before, stated),
            (Call::Fetch { .. }, 0) if stated.fills.is_some() => {
                let next = &desk.seats[(sector + 1) % SECTORS];
                self.bring_in(before, next, stated)
            }
            (Call::Fetch { .. }, 1..) if self == Rule::RefusedBringsIn && before.waits != 0 => {
                stated.brought_in()
            }
            _ => stated,
        }
    }

    /// A hand-in that is loaded at once.
    fn load(self, record: &[u8], mut answer: Answer) -> Answer {
        if self == Rule::LoadedKept {
            answer.seat.record = room(record);
        }
        answer
    }

    /// A hand-in that waits.
    fn wait(self, before: &Seat, record: Record, mut answer: Answer) -> Answer {
        let unfinished = before.job.turn < 120;
        let handed_in = Answer {
            seat: *before,
            ..answer
        };
        match self {
            Rule::EarlyRefused if unfinished => answer.number = 6,
            Rule::EarlyDropped if unfinished => answer.seat = *before,
            Rule::EarlyLoaded if unfinished => answer = handed_in.loaded(record),
            Rule::WaitingWrites => answer.fills = Some(record),
            Rule::WaitingHeard => answer.seat.heard = heard(&record),
            Rule::WaitingAnswersHeard => answer.heard = heard(&record),
            Rule::WaitingAnswersNew => answer.job = Job::new(0, 0),
            Rule::FirstKept if before.waits != 0 => answer.seat = *before,
            Rule::LoadedWhileWaiting if !unfinished => answer = handed_in.loaded(record),
            Rule::HandInBringsIn if !unfinished => answer = answer.loaded(before.record),
            _ => {}
        }
        answer
    }

    /// A hand-in that is refused. By some rules it is not, where it would have to wait.
    fn refuse(self, before: &Seat, record: &[u8], mut answer: Answer) -> Answer {
        let waits = before.job.turn < 120 || before.waits != 0;
        match (self, answer.number) {
            (Rule::WaitingNeedsNoArea, 3) if waits && is_heard(record) => answer.number = 0,
            (Rule::WaitingUnheard, 4) if waits => answer.number = 0,
            (Rule::RefusedReplaces, 4) if before.waits != 0 => answer.seat.record = room(record),
            _ => {}
        }
        answer
    }

    /// A Run that may make the last turn.
    fn run(self, before: &Seat, answer: Answer) -> Answer {
        let last = before.job.turn < 120 && answer.seat.job.turn == 120;
        if self == Rule::RunBringsIn && last && before.waits != 0 {
            answer.brought_in()
        } else {
            answer
        }
    }

    /// A Fetch that brings in what waits.
    fn bring_in(self, before: &Seat, next: &Seat, mut answer: Answer) -> Answer {
        let seat = &mut answer.seat;
        match self {
            Rule::NeverBroughtIn => (*seat, answer.fills) = (*before, None),
            Rule::JobLeft => seat.job = before.job,
            Rule::HeardLeft => seat.heard = before.heard,
            Rule::WaitsLeft => seat.waits = before.waits,
            Rule::RoomWiped => seat.record = [0; MATRIX_RECORD],
            Rule::NextBroughtIn => answer = answer.loaded(next.record),
            Rule::BringingInRefills => seat.left = seat.share,
            Rule::BringingInPays => seat.left = seat.left.saturating_sub(1),
            _ => {}
        }
        answer
    }
}

impl Answer {
    /// What the call comes to if it loads a record besides.
    fn loaded(mut self, record: Record) -> Self {
        (self.seat.job, self.seat.heard) = (Job::new(0, 0), heard(&record));
        self.fills = Some(record);
        self
    }

    /// What the call comes to if it loads what waits besides.
    fn brought_in(mut self) -> Self {
        self.seat.waits = 0;
        self.loaded(self.seat.record)
    }
}

fn room(record: &[u8]) -> Record {
    let room = record.first_chunk();
    *room.expect("a record that passes test 2 has 257 bytes")
}

fn heard(record: &Record) -> u8 {
    matrix_behind_kind(record).heard()
}

/// Whether a record that is refused for its area would be accepted with another.
fn is_heard(record: &[u8]) -> bool {
    heard(&room(record)) != 0
}

/// In how many calls each other rule would have come to something else.
#[derive(Debug)]
pub struct OtherAnswers(Noticed<Rule, { Rule::ALL.len() }>);

impl OtherAnswers {
    pub const NONE: OtherAnswers = OtherAnswers(Noticed::none(Rule::ALL));

    /// Calls that are for no sector, or for one that no hub has, or refused for their role are not what
    /// these rules are about.
    pub fn look(&mut self, desk: &Desk, step: &Step, reply: &DeskReply) {
        let sector = step.call.sector().map(|sector| sector as usize);
        let sector = sector.filter(|_| reply.number != 15);
        let Some(sector) = sector.filter(|sector| *sector < SECTORS) else {
            return;
        };
        let loads = step.loads(desk).filter(|_| reply.number == 0);
        let stated = Answer {
            number: reply.number,
            heard: reply.heard,
            job: reply.job,
            seat: reply.desk.seats[sector],
            fills: loads.map(|record| room(&record)),
        };
        self.0
            .look(|rule| rule.answer(desk, sector, step, stated) != stated);
    }

    pub fn print_and_require_all_rules(&self, test: &str) {
        self.0.print_and_require_all_rules(test, "answers");
    }
}
