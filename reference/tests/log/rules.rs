//! Other rules that a builder could take for those of the specification. Where one of them answers
//! something else, or leaves other bytes, the comparison tells the two apart.

mod adding;
mod lists;
mod reading;
mod run;
mod sweeping;

use reference::log::EntryKind;

use crate::common::log::{Call, Made, Reply};
use crate::common::noticed::Noticed;

#[derive(Debug, Clone, Copy, PartialEq, Eq)]
pub enum Rule {
    /// Those of the specification.
    Stated,
    /// An entry's age, which stops at 0, is held to its days. No answer differs.
    AgeStops,

    /// The tests of adding in another order.
    Order([u8; 4]),

    /// Only so many low bits of a kind count.
    KindBits(u32),
    /// A fourth kind, with a body of one byte.
    AlsoKind(u32),
    /// Bodies of one kind have another length.
    BodyOf(EntryKind, usize),
    /// A longer body is accepted.
    LongerBody,
    /// A shorter body is accepted.
    ShorterBody,
    /// The body of a result has to be one.
    ResultTested,
    /// The body of a refusal has to be a number that there is.
    RefusalTested,
    /// The heard byte of no antenna is refused.
    HeardTested,

    /// Only that the used bytes lie within the buffer is tested.
    PassOnly,
    /// A used count beyond the buffer counts as the buffer's length.
    PassIgnored,
    /// A used count is cut to so many bits.
    UsedBits(u32),
    /// An entry that is cut off at the end is one of the run.
    CutEnd,
    /// So is a kind byte alone.
    LoneKind,
    /// So is a kind with a day.
    LoneHead,
    /// Behind the first entry anything may stand.
    FirstOnly,
    /// An unknown kind has a body of one byte.
    UnknownSkipped,
    /// No entry is no run.
    EmptyRefused,
    /// A buffer that is used up is refused.
    FullRefused,
    /// The bytes behind the used ones have to be entries, too.
    WholeBuffer,
    /// An entry may not be older than the one before it.
    DaysRising,

    /// An entry that fits exactly is refused.
    ExactRefused,
    /// One byte too few is enough.
    OneOver,
    /// The body alone has to fit.
    HeadForgotten,
    /// Every entry needs the room of a result.
    ResultRoom,
    /// The entry has to fit the buffer, whatever is used of it.
    UsedForgotten,
    /// What is used with the entry is kept in so many bits.
    SumBits(u32),
    /// Of an entry that does not fit as much as fits is written.
    RefusedWrites,

    /// A day has its low byte first.
    LowByteFirst,
    /// Only so many low bits of a day are stored.
    StoredBits(u32),
    /// Adding sweeps first.
    AddSweeps,
    /// It does where the entry does not fit.
    FullSweeps,
    /// An entry is put in front of the others.
    InFront,
    /// It is put where its day belongs.
    ByDay,
    /// An entry that is the same as the last is not added again.
    NoDoubles,
    /// A refused call answers the used count that it was handed.
    CountGivenBack,
    /// Adding answers where the entry stands.
    PlaceAnswered,
    /// It answers how long the entry is.
    LengthAnswered,

    /// Another number of days for one kind.
    Days(EntryKind, u32),
    /// An entry stays one day longer.
    LastDayToo,
    /// An entry dated after the sweep's day goes.
    FutureSwept,
    /// It goes if it lies as many days ahead as it would stay.
    DistanceHeld,
    /// The last days are sums modulo 2^32.
    SumWraps,
    /// They stop at the last day that there is.
    SumStops,
    /// The age is a difference modulo 2^32.
    AgeWraps,
    /// Days are signed.
    SignedDays,
    /// Their sums wrap as signed ones.
    SignedSum,
    /// Only so many low bits of days are compared.
    ComparedBits(u32),

    /// Bytes behind the new used count are cleared.
    Cleared,
    /// All of the buffer is moved, what was unused too.
    RestMoved,
    /// Entries stay where they stand.
    GapsLeft,
    /// Entries are turned round.
    Reversed,
    /// Entries are put in the order of their days.
    Sorted,
    /// The last entry fills a gap.
    LastFills,
    /// A sweep ends at the first entry that stays.
    LeadingOnly,
    /// It drops one entry at most.
    OneOnly,
    /// It does not look at the last entry.
    LastLeft,
    /// It does not look at the entry behind one that it dropped.
    NextLeft,
    /// The last result stays.
    ResultLeft,
    /// The bytes that were freed are answered.
    FreedAnswered,
    /// The used count is answered as it was.
    CountKept,

    /// Reading tests all of the used bytes.
    WholeRun,
    /// It tests those before the place.
    StartsOnly,
    /// It is refused at the end.
    EndRefused,
    /// It answers place 0 there.
    EndAtZero,
    /// Behind the end is the end.
    PastIsEnd,
    /// A used count beyond the buffer is accepted.
    UsedUntested,
    /// An entry has to lie within the buffer, not within the used bytes.
    CutByUsed,
    /// The body's place is counted from its entry on.
    BodyFromEntry,
    /// The body's place is that of its entry.
    BodyAtEntry,
    /// How long the entry is stands for the next place.
    LengthAsNext,
    /// A refusal answers its place.
    PlaceGivenBack,
}

impl Rule {
    /// Those that answer the same to all calls.
    const SAME: [Rule; 2] = [Rule::Stated, Rule::AgeStops];

    /// What a call answers by this rule, and what it leaves in the buffer.
    fn make(self, call: &Call, buffer: &mut Vec<u8>) -> Reply {
        match call {
            Call::Add { .. } => Reply::Log(self.add(call, buffer)),
            Call::Sweep { day, used } => Reply::Log(self.sweep(*day, *used, buffer)),
            Call::Next { at, used } => Reply::Entry(self.next(*at, *used, buffer)),
        }
    }

    fn differs(self, made: &Made) -> bool {
        let mut buffer = made.before.clone();
        let reply = self.make(&made.call, &mut buffer);
        reply != made.reply || buffer != made.after
    }
}

/// In how many calls each of some other rules would have answered something else or left other bytes.
pub struct Others<const RULES: usize>(Noticed<Rule, RULES>);

impl<const RULES: usize> Others<RULES> {
    pub const fn of(rules: [Rule; RULES]) -> Self {
        Others(Noticed::none(rules))
    }

    pub fn look(&mut self, made: &Made) {
        for rule in Rule::SAME {
            let Made { call, reply, .. } = made;
            assert!(!rule.differs(made), "{rule:?} differs: {reply:?} to {call}");
        }
        self.0.look(|rule| rule.differs(made));
    }

    pub fn print_and_require_all_rules(&self, test: &str) {
        self.0.print_and_require_all_rules(test, "answers");
    }
}
