//! Other rules that a builder could take for those of the specification, but for the matrix that
//! comes early and for who may make a call. Where one of them gives another answer, the comparison
//! tells the two apart.

use reference::area::AREA_WORDS;
use reference::desk::{Desk, DeskReply, Seat, SECTORS};

use crate::common::desk::Call;
use crate::common::noticed::Noticed;
use crate::shares::{total, Shares};
use crate::steps::Step;

#[derive(Debug, Clone, Copy, PartialEq, Eq)]
enum Rule {
    /// What was requested is paid.
    RequestPaid,
    /// The turns truly made are paid, and none that was skipped.
    MadePaid,
    /// The count of the next sector pays.
    NextPays,
    /// Every count pays, as if the round had one for all.
    AllPay,
    /// A hand-in takes a turn.
    HandInPays,
    /// A hand-in refills the count of its sector.
    HandInRefills,
    /// A share is added to what was left when a round begins.
    LeftKept,
    /// Shares that are set refill the counts at once.
    SharesAtOnce,
    /// Of shares that are refused the first seven are kept.
    SevenKept,
    /// Shares of 121 in total are accepted.
    OneMore,
    /// The total of shares is kept in 16 bits.
    NarrowTotal,
    /// Each share may be 120 by itself.
    EachByItself,
    /// Shares of less than 120 in total are refused.
    UnderRefused,
    /// A share of 0 is refused.
    ZeroRefused,
    /// A refused Run answers the sector's job, as the engine's own does.
    JobGivenBack,
    /// 12 comes after 3.
    SectorAfterArea,
    /// 13 comes before 5.
    CountBeforeJob,
    /// 13 only when no sector has a turn left.
    AllUsedUp,
    /// 13 for every request above what the sector has left.
    AllOrNothing,
    /// 13 for a request of 0, too.
    NothingRefused,
    /// 13 for a finished job, too.
    FinishedRefused,
    /// Only the low byte of a sector counts.
    LowByte,
}

/// What a sector has of the turns.
#[derive(Debug, Clone, Copy, PartialEq, Eq)]
struct Counts {
    share: u16,
    left: u16,
}

fn counts(desk: &Desk) -> [Counts; SECTORS] {
    let counts = |seat: &Seat| Counts {
        share: seat.share,
        left: seat.left,
    };
    desk.seats.each_ref().map(counts)
}

impl Rule {
    const ALL: [Rule; 22] = [
        Rule::RequestPaid,
        Rule::MadePaid,
        Rule::NextPays,
        Rule::AllPay,
        Rule::HandInPays,
        Rule::HandInRefills,
        Rule::LeftKept,
        Rule::SharesAtOnce,
        Rule::SevenKept,
        Rule::OneMore,
        Rule::NarrowTotal,
        Rule::EachByItself,
        Rule::UnderRefused,
        Rule::ZeroRefused,
        Rule::JobGivenBack,
        Rule::SectorAfterArea,
        Rule::CountBeforeJob,
        Rule::AllUsedUp,
        Rule::AllOrNothing,
        Rule::NothingRefused,
        Rule::FinishedRefused,
        Rule::LowByte,
    ];

    /// Whether a call answers something else by this rule, where it is handed a desk and answers
    /// something by the rules of the specification.
    fn differs(self, desk: &Desk, step: &Step, stated: &DeskReply) -> bool {
        let number = self.number(desk, step, stated.number);
        let gives_back = self == Rule::JobGivenBack && number != 0;
        let given_back = match (&step.call, seat(desk, &step.call)) {
            (Call::Run { .. }, Some(seat)) if gives_back => seat.job,
            _ => stated.job,
        };
        number != stated.number
            || given_back != stated.job
            || self.counts(desk, &step.call, stated) != counts(&stated.desk)
    }

    /// The shares that are answered and what is left, where the number is that of the specification.
    fn counts(self, desk: &Desk, call: &Call, stated: &DeskReply) -> [Counts; SECTORS] {
        let (before, mut answered) = (counts(desk), counts(&stated.desk));
        let sectors = answered.iter_mut();
        match (call, stated.number) {
            (Call::Begin, _) if self == Rule::LeftKept => {
                let sectors = sectors.zip(&before);
                sectors.for_each(|(now, before)| now.left = now.left.saturating_add(before.left));
            }
            (Call::SetShares { .. }, 0) if self == Rule::SharesAtOnce => {
                sectors.for_each(|now| now.left = now.share);
            }
            (Call::SetShares { shares }, 14) if self == Rule::SevenKept => {
                let seven = sectors.zip(shares).take(7);
                seven.for_each(|(now, share)| now.share = *share);
            }
            (Call::HandIn { sector, .. }, 0) => {
                let now = &mut answered[*sector as usize];
                now.left = self.left_by_hand_in(*now);
            }
            (Call::Run { sector, request }, 0) => {
                let sector = *sector as usize;
                let made = stated.job.made - desk.seats[sector].job.made;
                let turns = [*request, stated.count as u16, made as u16];
                for (k, now) in sectors.enumerate() {
                    let place = (k + SECTORS - sector) % SECTORS;
                    now.left = before[k].left.saturating_sub(self.pays(place, turns));
                }
            }
            _ => {}
        }
        answered
    }

    /// What a sector has left after a hand-in.
    fn left_by_hand_in(self, Counts { share, left }: Counts) -> u16 {
        match self {
            Rule::HandInPays => left.saturating_sub(1),
            Rule::HandInRefills => share,
            _ => left,
        }
    }

    /// What the sector so many places after the one that runs pays for turns that were requested,
    /// granted and truly made.
    fn pays(self, place: usize, [requested, granted, made]: [u16; 3]) -> u16 {
        match (self, place) {
            (Rule::RequestPaid, 0) => requested,
            (Rule::MadePaid, 0) => made,
            (Rule::NextPays, 1) | (Rule::AllPay, _) => granted,
            (Rule::NextPays, _) => 0,
            (_, 0) => granted,
            _ => 0,
        }
    }

    fn number(self, desk: &Desk, step: &Step, stated: u8) -> u8 {
        let seat = seat(desk, &step.call);
        match (self, &step.call) {
            (_, Call::SetShares { shares }) if self.accepts(shares) => 0,
            (_, Call::SetShares { .. }) => 14,
            (Rule::SectorAfterArea, Call::Run { .. } | Call::Fetch { .. })
                if stated == 12 && step.lent.words < AREA_WORDS =>
            {
                3
            }
            (Rule::LowByte, Call::Heard { sector }) if *sector as u8 <= 7 => 0,
            (Rule::AllUsedUp, _) if stated == 13 && desk.seats.iter().any(|seat| seat.left > 0) => {
                0
            }
            (_, Call::Run { request, .. })
                if seat.is_some_and(|seat| self.gives_13(seat, *request, stated)) =>
            {
                13
            }
            _ => stated,
        }
    }

    /// Whether a Run is refused with 13 by this rule and not by that of the specification.
    fn gives_13(self, seat: &Seat, request: u16, stated: u8) -> bool {
        let (unfinished, used_up) = (seat.job.turn < 120, seat.left == 0);
        match self {
            Rule::CountBeforeJob => stated == 5 && request > 0 && unfinished && used_up,
            Rule::AllOrNothing => stated == 0 && request > seat.left && unfinished,
            Rule::NothingRefused => stated == 0 && request == 0 && unfinished && used_up,
            Rule::FinishedRefused => stated == 0 && request > 0 && !unfinished && used_up,
            _ => false,
        }
    }

    /// Whether shares are accepted by this rule.
    fn accepts(self, shares: &Shares) -> bool {
        let total = total(shares);
        match self {
            Rule::OneMore => total <= 121,
            Rule::NarrowTotal => total as u16 <= 120,
            Rule::EachByItself => shares.iter().all(|share| *share <= 120),
            Rule::UnderRefused => total == 120,
            Rule::ZeroRefused => total <= 120 && !shares.contains(&0),
            _ => total <= 120,
        }
    }
}

/// The seat of the sector that a call is for.
fn seat<'a>(desk: &'a Desk, call: &Call) -> Option<&'a Seat> {
    desk.seats.get(call.sector()? as usize)
}

/// In how many calls each other rule would have given another answer.
#[derive(Debug)]
pub struct OtherAnswers(Noticed<Rule, { Rule::ALL.len() }>);

impl OtherAnswers {
    pub const NONE: OtherAnswers = OtherAnswers(Noticed::none(Rule::ALL));

    /// Calls that are refused for their role are not what these rules are about.
    pub fn look(&mut self, desk: &Desk, step: &Step, stated: &DeskReply) {
        if stated.number != 15 {
            self.0.look(|rule| rule.differs(desk, step, stated));
        }
    }

    pub fn print_and_require_all_rules(&self, test: &str) {
        self.0.print_and_require_all_rules(test, "answers");
    }
}
