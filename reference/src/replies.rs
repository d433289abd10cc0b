//! The refusal numbers, and the replies of the five calls of the factorization.

use crate::clamps::Clamps;
use crate::job::Job;

/// Why a call was refused. The discriminants are the numbers that are answered.
#[derive(Debug, Clone, Copy, PartialEq, Eq)]
#[repr(u8)]
pub enum Refusal {
    /// No byte, or a kind byte that is not the call's, or a log has no such kind of entry.
    Kind = 1,
    /// The record's length is wrong, or a log entry's body has not the length of its kind.
    Length = 2,
    /// The area has under 512 words.
    Area = 3,
    /// No antenna is heard.
    NoneHeard = 4,
    /// The job's turn number is above 120, or it has more turns made than its turn number.
    Job = 5,
    /// The job's turn number is under 120 at Fetch.
    Unfinished = 6,
    /// The buffer has under 2,049 bytes, or under 257 where a matrix record is to be written.
    Buffer = 7,
    /// R is not upper triangular, or one of its first 15 diagonal words is negative.
    Triangle = 8,
    /// A matrix record is to be written of no snapshot.
    NoSnapshot = 9,
    /// A snapshot after 4,096, a count above 4,096, or a sum beyond 2^31 times the count.
    Sums = 10,
    /// A diagonal word of R is 0.
    ZeroDiagonal = 11,
    /// The sector is above 7.
    Sector = 12,
    /// A request above 0 for an unfinished job, and the sector has no turn left in the round.
    CountUsedUp = 13,
    /// The shares of all sectors are above 120 in total.
    Shares = 14,
    /// The call is not allowed to this role.
    Role = 15,
    /// The used bytes of the log pass the buffer or are no whole run of entries.
    Log = 16,
    /// The entry does not fit behind the used bytes of the log.
    Room = 17,
}

impl Refusal {
    pub fn number(self) -> u8 {
        self as u8
    }
}

/// Load's reply. As in every reply, `number` is 0 for an accepted call and the refusal number
/// otherwise.
#[derive(Debug, Clone, Copy, Default, PartialEq, Eq)]
pub struct LoadReply {
    pub number: u8,
    pub heard: u8,
    pub job: Job,
}

/// Run's reply. A refused Run gives back the job as it was given.
#[derive(Debug, Clone, Copy, Default, PartialEq, Eq)]
pub struct RunReply {
    pub number: u8,
    pub job: Job,
    /// The turns of this call, skipped ones included.
    pub count: u32,
    pub clamps: Clamps,
}

/// Fetch's reply.
#[derive(Debug, Clone, Copy, Default, PartialEq, Eq)]
pub struct FetchReply {
    pub number: u8,
}

/// Read's reply.
#[derive(Debug, Clone, Copy, Default, PartialEq, Eq)]
pub struct ReadReply {
    pub number: u8,
    pub job: Job,
}

/// Whole's reply.
#[derive(Debug, Clone, Copy, Default, PartialEq, Eq)]
pub struct WholeReply {
    pub number: u8,
    pub heard: u8,
    pub clamps: Clamps,
}

impl From<Refusal> for LoadReply {
    fn from(refusal: Refusal) -> Self {
        LoadReply {
            number: refusal.number(),
            ..LoadReply::default()
        }
    }
}

impl From<Refusal> for FetchReply {
    fn from(refusal: Refusal) -> Self {
        FetchReply {
            number: refusal.number(),
        }
    }
}

impl From<Refusal> for ReadReply {
    fn from(refusal: Refusal) -> Self {
        ReadReply {
            number: refusal.number(),
            ..ReadReply::default()
        }
    }
}

impl From<Refusal> for WholeReply {
    fn from(refusal: Refusal) -> Self {
        WholeReply {
            number: refusal.number(),
            ..WholeReply::default()
        }
    }
}

impl RunReply {
    /// The reply of a Run that was refused with a job.
    pub fn refused(refusal: Refusal, job: Job) -> Self {
        RunReply {
            number: refusal.number(),
            job,
            ..RunReply::default()
        }
    }
}
