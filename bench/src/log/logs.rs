//! Logs as they are measured and compared on, written without any contender.

use hubqr::{LOG_HEARD, LOG_RESULT, RESULT_RECORD_BYTES};

/// A result record. Contenders do not look into it.
pub const RECORD: [u8; RESULT_RECORD_BYTES] = [2; RESULT_RECORD_BYTES];

/// What all entries of a log are.
#[derive(Clone, Copy, Debug, PartialEq, Eq)]
pub enum Of {
    Results,
    HeardBytes,
}

impl Of {
    pub const ALL: [Of; 2] = [Of::Results, Of::HeardBytes];

    pub fn name(self) -> &'static str {
        match self {
            Of::Results => "results",
            Of::HeardBytes => "heard bytes",
        }
    }

    /// The bytes of such an entry.
    pub fn entry(self, day: u32) -> Vec<u8> {
        match self {
            Of::Results => written(LOG_RESULT, day, &RECORD),
            Of::HeardBytes => written(LOG_HEARD, day, &[0xff]),
        }
    }
}

/// The bytes of an entry.
pub fn written(kind: u32, day: u32, body: &[u8]) -> Vec<u8> {
    [&[kind as u8], &day.to_be_bytes()[..], body].concat()
}
