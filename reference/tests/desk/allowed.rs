//! Other rules for who may make a call, for what one answers that is refused for its role, and for a
//! fitter's Fetch. Where one of them gives another answer, or touches what it was only lent, the
//! comparison tells it from those of the specification.

use reference::desk::{self, Desk, DeskReply, Seat};
use reference::job::Job;
use reference::records::matrix_behind_kind;

use crate::common::desk::role::{FITTER, OPERATOR, VIEWER};
use crate::common::desk::Call;
use crate::common::noticed::Noticed;
use crate::steps::Step;

#[derive(Debug, Clone, Copy, PartialEq, Eq)]
enum Rule {
    /// 12 comes before 15.
    SectorFirst,
    /// 14 comes before 15.
    SharesFirst,
    /// 1 and 2 come before 15.
    RecordFirst,
    /// 3 comes before 15.
    AreaFirst,
    /// 4 comes before 15.
    NoneHeardFirst,
    /// 5 comes before 15.
    JobFirst,
    /// 6 comes before 15.
    UnfinishedFirst,
    /// 7 comes before 15.
    BufferFirst,
    /// 13 comes before 15.
    CountFirst,
    /// A viewer may fetch.
    ViewerFetches,
    /// A viewer may begin a round.
    ViewerBegins,
    /// A fitter may hand in.
    FitterHandsIn,
    /// A fitter may run.
    FitterRuns,
    /// A fitter may begin a round.
    FitterBegins,
    /// A fitter may set shares.
    FitterSetsShares,
    /// A viewer may not ask for the heard byte.
    ViewerNotHeard,
    /// A fitter may not ask for the heard byte.
    FitterNotHeard,
    /// The operator, who does the work, may not ask for the heard byte.
    OperatorNotHeard,
    /// The operator may not fetch.
    OperatorNotFetch,
    /// Only the low two bits of a role count.
    LowBits,
    /// Only the low byte of a role counts.
    LowByte,
    /// Only the low 16 bits of a role count.
    LowHalf,
    /// A role is read as a signed number, and what is below 0 is a viewer.
    Signed,
    /// A number that is no role is a viewer, and gets the heard byte.
    UnknownViewer,
    /// 3 is an operator.
    ThreeOperator,
    /// Every number above 1 is an operator.
    AboveOperator,
    /// The operator is 0, and the viewer 2.
    Reversed,
    /// The fitter is 0, and the viewer 1.
    Swapped,
    /// A Run that is refused answers the sector's job.
    RunAnswersJob,
    /// A hand-in that is refused answers the sector's job.
    HandInAnswersJob,
    /// A hand-in that is refused answers the sector's heard byte.
    HandInAnswersHeard,
    /// A refused question for the heard byte answers it all the same.
    HeardAnswered,
    /// A Fetch that is refused writes what the area holds all the same.
    FetchWrites,
    /// A begin that is refused refills the counts all the same.
    BeginRefills,
    /// Shares that are refused for the role are set all the same.
    SharesSet,
    /// A Run that is refused pays all the same.
    RunPays,
    /// A hand-in that is refused takes the place of what waits.
    HandInReplaces,
    /// A fitter's Fetch brings in what waits.
    FitterBringsIn,
    /// A fitter's Fetch leaves the job at (0, 0).
    FitterStartsJob,
    /// A fitter's Fetch drops what waits.
    FitterDrops,
    /// A fitter's Fetch gives the sector the heard byte of what waits.
    FitterTakesHeard,
    /// A fitter's Fetch takes a turn.
    FitterPays,
    /// A fitter's Fetch is refused with 15 while one waits.
    FitterHasToWait,
}

impl Rule {
    const ALL: [Rule; 43] = [
        Rule::SectorFirst,
        Rule::SharesFirst,
        Rule::RecordFirst,
        Rule::AreaFirst,
        Rule::NoneHeardFirst,
        Rule::JobFirst,
        Rule::UnfinishedFirst,
        Rule::BufferFirst,
        Rule::CountFirst,
        Rule::ViewerFetches,
        Rule::ViewerBegins,
        Rule::FitterHandsIn,
        Rule::FitterRuns,
        Rule::FitterBegins,
        Rule::FitterSetsShares,
        Rule::ViewerNotHeard,
        Rule::FitterNotHeard,
        Rule::OperatorNotHeard,
        Rule::OperatorNotFetch,
        Rule::LowBits,
        Rule::LowByte,
        Rule::LowHalf,
        Rule::Signed,
        Rule::UnknownViewer,
        Rule::ThreeOperator,
        Rule::AboveOperator,
        Rule::Reversed,
        Rule::Swapped,
        Rule::RunAnswersJob,
        Rule::HandInAnswersJob,
        Rule::HandInAnswersHeard,
        Rule::HeardAnswered,
        Rule::FetchWrites,
        Rule::BeginRefills,
        Rule::SharesSet,
        Rule::RunPays,
        Rule::HandInReplaces,
        Rule::FitterBringsIn,
        Rule::FitterStartsJob,
        Rule::FitterDrops,
        Rule::FitterTakesHeard,
        Rule::FitterPays,
        Rule::FitterHasToWait,
    ];

    /// Whether a call that is handed a desk comes to something else by this rule. By the rules of the
    /// specification it answers one number, and another if the role is not tested.
    fn differs(self, handed: &Desk, step: &Step, stated: u8, untested: u8) -> bool {
        let Step { role, call, .. } = step;
        let seat = call.sector().and_then(|k| handed.seats.get(k as usize));
        match (stated, seat) {
            _ if self.allows(*role, call) != call.is_allowed_to(*role) => true,
            (15, _) if self.tests_before(untested) => true,
            (15, Some(seat)) => {
                self.answers_more(call, seat) || self.does_more(call, seat, untested)
            }
            (15, None) => self.does_more_for_all(call, handed, untested),
            (0, Some(seat)) => call.is_fetch() && *role == FITTER && self.fetches_otherwise(seat),
            _ => false,
        }
    }

    /// Whether a role may make a call.
    fn allows(self, role: u32, call: &Call) -> bool {
        let heard = matches!(call, Call::Heard { .. });
        let fetches = matches!(call, Call::Fetch { .. });
        match (self, role) {
            (Rule::ViewerFetches, VIEWER) if fetches => true,
            (Rule::ViewerBegins, VIEWER) if matches!(call, Call::Begin) => true,
            (Rule::FitterHandsIn, FITTER) if matches!(call, Call::HandIn { .. }) => true,
            (Rule::FitterRuns, FITTER) if matches!(call, Call::Run { .. }) => true,
            (Rule::FitterBegins, FITTER) if matches!(call, Call::Begin) => true,
            (Rule::FitterSetsShares, FITTER) if matches!(call, Call::SetShares { .. }) => true,
            (Rule::ViewerNotHeard, VIEWER) if heard => false,
            (Rule::FitterNotHeard, FITTER) if heard => false,
            (Rule::OperatorNotHeard, OPERATOR) if heard => false,
            (Rule::OperatorNotFetch, OPERATOR) if fetches => false,
            _ => call.is_allowed_to(self.taken_for(role)),
        }
    }

    /// The role that a number is taken for.
    fn taken_for(self, role: u32) -> u32 {
        let unknown = role > OPERATOR;
        match self {
            Rule::LowBits => role & 3,
            Rule::LowByte => role & 0xFF,
            Rule::LowHalf => role & 0xFFFF,
            Rule::Signed if (role as i32) < 0 => VIEWER,
            Rule::UnknownViewer if unknown => VIEWER,
            Rule::ThreeOperator if role == 3 => OPERATOR,
            Rule::AboveOperator if unknown => OPERATOR,
            Rule::Reversed if !unknown => OPERATOR - role,
            Rule::Swapped if role <= FITTER => FITTER - role,
            _ => role,
        }
    }

    /// Whether the test with a number comes before 15.
    fn tests_before(self, number: u8) -> bool {
        match self {
            Rule::SectorFirst => number == 12,
            Rule::SharesFirst => number == 14,
            Rule::RecordFirst => number == 1 || number == 2,
            Rule::AreaFirst => number == 3,
            Rule::NoneHeardFirst => number == 4,
            Rule::JobFirst => number == 5,
            Rule::UnfinishedFirst => number == 6,
            Rule::BufferFirst => number == 7,
            Rule::CountFirst => number == 13,
            _ => false,
        }
    }

    /// Whether a call for a sector that is refused for its role answers more than its number.
    fn answers_more(self, call: &Call, seat: &Seat) -> bool {
        let job = seat.job != Job::new(0, 0);
        match (self, call) {
            (Rule::RunAnswersJob, Call::Run { .. }) => job,
            (Rule::HandInAnswersJob, Call::HandIn { .. }) => job,
            (Rule::HandInAnswersHeard, Call::HandIn { .. }) => seat.heard != 0,
            (Rule::HeardAnswered, Call::Heard { .. }) => seat.heard != 0,
            _ => false,
        }
    }

    /// Whether it does something all the same, where it would be accepted.
    fn does_more(self, call: &Call, seat: &Seat, untested: u8) -> bool {
        match (self, call) {
            _ if untested != 0 => false,
            (Rule::FetchWrites, Call::Fetch { .. }) => true,
            (Rule::RunPays, Call::Run { request, .. }) => {
                *request > 0 && seat.left > 0 && seat.job.turn < 120
            }
            (Rule::HandInReplaces, Call::HandIn { record, .. }) => {
                seat.waits != 0 && seat.record != record[..]
            }
            _ => false,
        }
    }

    /// Whether a call for all sectors does something all the same.
    fn does_more_for_all(self, call: &Call, handed: &Desk, untested: u8) -> bool {
        let mut seats = handed.seats.iter();
        match (self, call) {
            _ if untested != 0 => false,
            (Rule::BeginRefills, Call::Begin) => seats.any(|seat| seat.left != seat.share),
            (Rule::SharesSet, Call::SetShares { shares }) => {
                seats.zip(shares).any(|(seat, share)| seat.share != *share)
            }
            _ => false,
        }
    }

    /// Whether a fitter's Fetch that is accepted changes the seat, or is not accepted.
    fn fetches_otherwise(self, seat: &Seat) -> bool {
        let waits = seat.waits != 0;
        match self {
            Rule::FitterBringsIn | Rule::FitterDrops | Rule::FitterHasToWait => waits,
            Rule::FitterTakesHeard => waits && heard(seat) != seat.heard,
            Rule::FitterStartsJob => true,
            Rule::FitterPays => seat.left > 0,
            _ => false,
        }
    }
}

/// The heard byte of the matrix that waits.
fn heard(seat: &Seat) -> u8 {
    matrix_behind_kind(&seat.record).heard()
}

/// The number that a call answers to the operator. Zeros are lent in the place of any other words.
fn untested(handed: &Desk, Step { call, lent, .. }: &Step) -> u8 {
    let (mut area, mut buffer) = (vec![0; lent.words], vec![0; lent.bytes]);
    let reply = match call {
        Call::Begin => desk::begin(OPERATOR, handed),
        Call::SetShares { shares } => desk::set_shares(OPERATOR, handed, shares),
        Call::HandIn { sector, record } => {
            desk::hand_in(OPERATOR, handed, *sector, record, &mut area)
        }
        Call::Run { sector, request } => desk::run(OPERATOR, handed, *sector, *request, &mut area),
        Call::Fetch { sector } => desk::fetch(OPERATOR, handed, *sector, &mut area, &mut buffer),
        Call::Heard { sector } => desk::heard(OPERATOR, handed, *sector),
    };
    reply.number
}

/// In how many calls each other rule would have come to something else.
#[derive(Debug)]
pub struct OtherAnswers(Noticed<Rule, { Rule::ALL.len() }>);

impl OtherAnswers {
    pub const NONE: OtherAnswers = OtherAnswers(Noticed::none(Rule::ALL));

    pub fn look(&mut self, handed: &Desk, step: &Step, reply: &DeskReply) {
        let stated = reply.number;
        let untested = if stated == 15 {
            untested(handed, step)
        } else {
            stated
        };
        self.0
            .look(|rule| rule.differs(handed, step, stated, untested));
    }

    pub fn print_and_require_all_rules(&self, test: &str) {
        self.0.print_and_require_all_rules(test, "answers");
    }
}
