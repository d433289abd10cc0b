//! Which of the other rules the calls of a test tell apart.

use reference::log::EntryKind;

use super::Rule;

impl Rule {
    /// What an entry is.
    pub const OF_KINDS: [Rule; 13] = [
        Rule::KindBits(3),
        Rule::KindBits(8),
        Rule::KindBits(16),
        Rule::AlsoKind(0),
        Rule::AlsoKind(2),
        Rule::AlsoKind(4),
        Rule::AlsoKind(8),
        Rule::BodyOf(EntryKind::Result, 2_048),
        Rule::BodyOf(EntryKind::Result, 2_050),
        Rule::BodyOf(EntryKind::Refusal, 2),
        Rule::BodyOf(EntryKind::Heard, 0),
        Rule::LongerBody,
        Rule::ShorterBody,
    ];

    /// What a body may be.
    pub const OF_BODIES: [Rule; 3] = [Rule::ResultTested, Rule::RefusalTested, Rule::HeardTested];

    /// What a whole run of entries is.
    pub const OF_RUNS: [Rule; 16] = [
        Rule::PassOnly,
        Rule::PassIgnored,
        Rule::UsedBits(32),
        Rule::CutEnd,
        Rule::LoneKind,
        Rule::LoneHead,
        Rule::FirstOnly,
        Rule::UnknownSkipped,
        Rule::EmptyRefused,
        Rule::FullRefused,
        Rule::WholeBuffer,
        Rule::DaysRising,
        Rule::KindBits(3),
        Rule::AlsoKind(0),
        Rule::BodyOf(EntryKind::Result, 2_048),
        Rule::CountGivenBack,
    ];

    /// What a buffer that is used up is.
    pub const OF_FULL: [Rule; 2] = [Rule::PassIgnored, Rule::FullRefused];

    /// When an entry fits.
    pub const OF_ROOM: [Rule; 6] = [
        Rule::ExactRefused,
        Rule::OneOver,
        Rule::HeadForgotten,
        Rule::ResultRoom,
        Rule::UsedForgotten,
        Rule::RefusedWrites,
    ];

    /// What adding does.
    pub const OF_ADDING: [Rule; 10] = [
        Rule::LowByteFirst,
        Rule::StoredBits(16),
        Rule::AddSweeps,
        Rule::FullSweeps,
        Rule::InFront,
        Rule::ByDay,
        Rule::NoDoubles,
        Rule::CountGivenBack,
        Rule::PlaceAnswered,
        Rule::LengthAnswered,
    ];

    /// How long entries stay, where days are small.
    pub const OF_SMALL_DAYS: [Rule; 13] = [
        Rule::Days(EntryKind::Result, 6),
        Rule::Days(EntryKind::Result, 8),
        Rule::Days(EntryKind::Refusal, 29),
        Rule::Days(EntryKind::Refusal, 31),
        Rule::Days(EntryKind::Refusal, 90),
        Rule::Days(EntryKind::Heard, 89),
        Rule::Days(EntryKind::Heard, 91),
        Rule::Days(EntryKind::Heard, 30),
        Rule::LastDayToo,
        Rule::FutureSwept,
        Rule::DistanceHeld,
        Rule::AgeWraps,
        Rule::LowByteFirst,
    ];

    /// The same, and where they are not.
    pub const OF_DAYS: [Rule; 18] = [
        Rule::Days(EntryKind::Result, 6),
        Rule::Days(EntryKind::Result, 8),
        Rule::Days(EntryKind::Refusal, 29),
        Rule::Days(EntryKind::Refusal, 31),
        Rule::Days(EntryKind::Refusal, 90),
        Rule::Days(EntryKind::Heard, 89),
        Rule::Days(EntryKind::Heard, 91),
        Rule::Days(EntryKind::Heard, 30),
        Rule::LastDayToo,
        Rule::FutureSwept,
        Rule::DistanceHeld,
        Rule::SumWraps,
        Rule::SumStops,
        Rule::AgeWraps,
        Rule::SignedDays,
        Rule::SignedSum,
        Rule::ComparedBits(16),
        Rule::LowByteFirst,
    ];

    /// What a sweep does to the buffer.
    pub const OF_SWEEPING: [Rule; 13] = [
        Rule::Cleared,
        Rule::RestMoved,
        Rule::GapsLeft,
        Rule::Reversed,
        Rule::Sorted,
        Rule::LastFills,
        Rule::LeadingOnly,
        Rule::OneOnly,
        Rule::LastLeft,
        Rule::NextLeft,
        Rule::ResultLeft,
        Rule::FreedAnswered,
        Rule::CountKept,
    ];

    /// What reading answers.
    pub const OF_READING: [Rule; 13] = [
        Rule::WholeRun,
        Rule::StartsOnly,
        Rule::EndRefused,
        Rule::EndAtZero,
        Rule::PastIsEnd,
        Rule::UsedUntested,
        Rule::CutByUsed,
        Rule::BodyFromEntry,
        Rule::BodyAtEntry,
        Rule::LengthAsNext,
        Rule::PlaceGivenBack,
        Rule::LowByteFirst,
        Rule::UsedBits(32),
    ];

    /// Every other order of the four tests of adding.
    pub fn orders() -> [Rule; 23] {
        std::array::from_fn(|k| {
            let mut rest = vec![16, 1, 2, 17];
            let places = [6, 2, 1, 1].map(|places| (k + 1) / places);
            Rule::Order(places.map(|place| rest.remove(place % rest.len())))
        })
    }
}
