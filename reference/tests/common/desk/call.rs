//! The calls at the desk as values, so that a history of them can be drawn, made and made again.

use std::fmt::{self, Display};

use reference::area::AREA_WORDS;
use reference::desk::{Desk, SECTORS};
use reference::records::RESULT_RECORD;

use super::role::OPERATOR;
use crate::common::twin::hexadecimal;

/// A call, with what is handed over beside the desk and the role.
#[derive(Debug, Clone)]
pub enum Call {
    Begin,
    SetShares { shares: [u16; SECTORS] },
    HandIn { sector: u32, record: Vec<u8> },
    Run { sector: u32, request: u16 },
    Fetch { sector: u32 },
    Heard { sector: u32 },
}

impl Call {
    pub fn name(&self) -> &'static str {
        match self {
            Call::Begin => "Begin",
            Call::SetShares { .. } => "Set shares",
            Call::HandIn { .. } => "Hand in",
            Call::Run { .. } => "Run",
            Call::Fetch { .. } => "Fetch",
            Call::Heard { .. } => "Heard",
        }
    }

    pub fn is_fetch(&self) -> bool {
        matches!(self, Call::Fetch { .. })
    }

    /// The record that the call loads, if it is accepted: the one that is handed in to a sector whose
    /// work is done and for which none waits, or the one that waits where the operator fetches a
    /// result.
    pub fn loads(&self, role: u32, desk: &Desk) -> Option<Vec<u8>> {
        let seat = desk.seats.get(self.sector()? as usize)?;
        match self {
            _ if role != OPERATOR => None,
            Call::HandIn { record, .. } if seat.job.turn >= 120 && seat.waits == 0 => {
                Some(record.clone())
            }
            Call::Fetch { .. } if seat.waits != 0 => Some(seat.record.to_vec()),
            _ => None,
        }
    }

    /// The sector that the call is for. A round begins for all, and shares are set for all.
    pub fn sector(&self) -> Option<u32> {
        match *self {
            Call::Begin | Call::SetShares { .. } => None,
            Call::HandIn { sector, .. }
            | Call::Run { sector, .. }
            | Call::Fetch { sector }
            | Call::Heard { sector } => Some(sector),
        }
    }
}

impl Display for Call {
    fn fmt(&self, f: &mut fmt::Formatter) -> fmt::Result {
        write!(f, "{}", self.name())?;
        if let Some(sector) = self.sector() {
            write!(f, " for sector {sector}")?;
        }
        match self {
            Call::SetShares { shares } => write!(f, " of {shares:?}"),
            Call::HandIn { record, .. } => write!(f, " of {}", hexadecimal(record)),
            Call::Run { request, .. } => write!(f, " of {request}"),
            _ => Ok(()),
        }
    }
}

/// What a call is lent: the first words of one of the areas, and the first bytes of the buffer. A
/// call that has no use for them is not lent them.
#[derive(Debug, Clone, Copy)]
pub struct Lent {
    pub area: usize,
    pub words: usize,
    pub bytes: usize,
}

impl Lent {
    /// An area and a buffer that are just long enough.
    pub fn area(area: usize) -> Self {
        Lent {
            area,
            words: AREA_WORDS,
            bytes: RESULT_RECORD,
        }
    }
}
