//! Random steps of a history: calls of every kind and by every role, accepted and refused, in any
//! order.

use reference::cases::Kind;
use reference::desk::{Desk, DeskReply, Seat};
use reference::job::Job;
use reference::random::Random;
use reference::records::write_matrix;

use crate::common::desk::role::{FITTER, OPERATOR, UNKNOWN, VIEWER};
use crate::common::desk::{BothDesk, Call, Lent};
use crate::shares::{any_shares, dealt, giving, total};

/// Sectors that no hub has. The low bits of some are those of one that it has.
pub const BEYOND: [u32; 9] = [
    8,
    9,
    255,
    256,
    263,
    1 << 16,
    1 << 31,
    u32::MAX - 7,
    u32::MAX,
];

const REQUESTS: [u16; 12] = [0, 1, 2, 7, 15, 15, 30, 60, 119, 120, 121, u16::MAX];

/// A desk that has the same job at every seat, and as much left.
pub fn desk_of(job: Job, left: u16) -> Desk {
    let seat = |k| Seat {
        job,
        heard: 31 * k as u8 + 5,
        share: 9_000 * k as u16 + 7,
        left,
        ..Seat::NEW
    };
    Desk {
        seats: std::array::from_fn(seat),
    }
}

/// The same desk with a matrix that waits at every seat, each another one.
pub fn desk_waiting(mut desk: Desk) -> Desk {
    for (k, seat) in desk.seats.iter_mut().enumerate() {
        (seat.waits, seat.record) = (1, [k as u8 + 1; 257]);
        seat.record[0] = 1;
    }
    desk
}

/// One call of a history.
#[derive(Debug, Clone)]
pub struct Step {
    pub role: u32,
    pub call: Call,
    pub lent: Lent,
    /// What stands in the place of the sector's job at the desk that is handed over: no job. The
    /// call is refused, and the next one is handed the desk that was there before.
    pub no_job: Option<Job>,
}

impl Step {
    /// The desk that is handed over in the place of this one.
    pub fn handed(&self, desk: &Desk) -> Desk {
        let mut handed = *desk;
        if let (Some(job), Some(sector)) = (self.no_job, self.call.sector()) {
            handed.seats[sector as usize].job = job;
        }
        handed
    }

    /// Makes the call. Only a desk with no such job in it is not the one that goes on.
    pub fn make(&self, both: &mut BothDesk) -> DeskReply {
        if self.no_job.is_some() {
            let handed = self.handed(both.desk());
            both.call_handed(self.role, &handed, &self.call, self.lent)
        } else {
            both.call(self.role, &self.call, self.lent)
        }
    }

    /// The record that the call loads, if it is accepted.
    pub fn loads(&self, handed: &Desk) -> Option<Vec<u8>> {
        self.call.loads(self.role, handed)
    }

    /// Whether a round begins.
    fn begins(&self) -> bool {
        matches!(self.call, Call::Begin) && self.role == OPERATOR
    }
}

/// Which area a call is lent.
#[derive(Debug, Clone, Copy, PartialEq, Eq)]
pub enum Areas {
    /// That of its sector.
    Own,
    /// Any of the eight, and every other time that of its sector.
    Any,
}

/// How the steps of one history are drawn.
#[derive(Debug, Clone, Copy)]
pub struct Steps {
    pub areas: Areas,
    /// How many sectors are served. Where they are few, a job is worked on for longer.
    pub served: u32,
    /// Whether most calls take the work forward, so that many matrices are handed in early, worked to
    /// the end, fetched and followed by the next.
    pub brisk: bool,
}

impl Steps {
    /// Steps of all sectors, each with its own area.
    pub const OF_ALL: Steps = Steps {
        areas: Areas::Own,
        served: 8,
        brisk: false,
    };

    /// Steps of a few sectors or of all. Every other time they are brisk, and those of a few.
    pub fn of_some(areas: Areas, random: &mut Random) -> Self {
        let brisk = random.one_in(2);
        let served: &[u32] = if brisk { &[1, 2, 3] } else { &[2, 3, 5, 8] };
        Steps {
            areas,
            served: random.choose(served),
            brisk,
        }
    }

    /// The steps of a history. Three in four begin a round with shares for those who are served: a
    /// share of 15 finishes few jobs in so few calls.
    pub fn history(self, count: usize, random: &mut Random) -> Vec<Step> {
        let mut steps: Vec<Step> = (0..count).map(|_| self.draw(random)).collect();
        if !random.one_in(4) {
            let shares = dealt(120, self.served as usize, random);
            let opening = [Call::SetShares { shares }, Call::Begin];
            for (step, call) in steps.iter_mut().zip(opening) {
                (step.role, step.call, step.no_job) = (OPERATOR, call, None);
            }
        }
        steps
    }

    pub fn draw(self, random: &mut Random) -> Step {
        self.draw_by(any_role(random), random)
    }

    /// A step of a role.
    pub fn draw_by(self, role: u32, random: &mut Random) -> Step {
        let sector = any_sector(self.served, random);
        let call = match role {
            VIEWER if random.one_in(2) => Call::Heard { sector },
            FITTER if random.one_in(2) => Call::Fetch { sector },
            _ if self.brisk && !random.one_in(4) => brisk_call(sector, random),
            _ => any_call(sector, self.served, random),
        };
        let area = match self.areas {
            Areas::Own if sector < 8 => sector as usize,
            Areas::Any if sector < 8 && random.one_in(2) => sector as usize,
            _ => random.below(8),
        };
        let lent = any_lent(area, random);
        let tested = matches!(call, Call::Run { .. } | Call::Fetch { .. });
        let no_job = (tested && sector < 8 && random.one_in(16)).then(|| no_job(random));
        Step {
            role,
            call,
            lent,
            no_job,
        }
    }

    /// A step of the round that has begun, which leaves a sector its share.
    pub fn draw_within(self, sector: usize, share: u16, random: &mut Random) -> Step {
        let mut step = self.draw(random);
        while step.begins() {
            step = self.draw(random);
        }
        if let Call::SetShares { shares } = &mut step.call {
            if total(shares) <= 120 && step.role == OPERATOR {
                *shares = giving(sector, share, random);
            }
        }
        step
    }
}

/// Three in four calls are the operator's.
fn any_role(random: &mut Random) -> u32 {
    if random.one_in(4) {
        other_role(random)
    } else {
        OPERATOR
    }
}

/// A fitter, a viewer, or a number that is no role.
pub fn other_role(random: &mut Random) -> u32 {
    match random.below(4) {
        0..=1 => FITTER,
        2 => VIEWER,
        _ => random.choose(&UNKNOWN),
    }
}

fn any_sector(served: u32, random: &mut Random) -> u32 {
    if random.one_in(16) {
        random.choose(&BEYOND)
    } else {
        random.below(served as usize) as u32
    }
}

fn any_call(sector: u32, served: u32, random: &mut Random) -> Call {
    match random.below(24) {
        0..=3 => Call::Begin,
        4 => Call::SetShares {
            shares: any_shares(served as usize, random),
        },
        5..=6 => Call::Heard { sector },
        7..=9 => Call::Fetch { sector },
        10..=13 => Call::HandIn {
            sector,
            record: any_record(random),
        },
        _ => Call::Run {
            sector,
            request: any_request(random),
        },
    }
}

/// A call that takes the work of a sector forward.
fn brisk_call(sector: u32, random: &mut Random) -> Call {
    match random.below(9) {
        0..=1 => Call::Begin,
        2..=4 => Call::Run {
            sector,
            request: random.choose(&[60, 119, 120, u16::MAX]),
        },
        5..=6 => Call::Fetch { sector },
        _ => Call::HandIn {
            sector,
            record: any_record(random),
        },
    }
}

pub fn any_request(random: &mut Random) -> u16 {
    if random.one_in(4) {
        random.part() as u16 >> random.below(16)
    } else {
        random.choose(&REQUESTS)
    }
}

/// Lengths around those that are just enough. Most are enough.
pub fn any_lent(area: usize, random: &mut Random) -> Lent {
    let words: &[usize] = if random.one_in(12) {
        &[0, 1, 511]
    } else {
        &[512, 513, 520]
    };
    let bytes: &[usize] = if random.one_in(6) {
        &[0, 1, 2048]
    } else {
        &[2049, 2050, 2057]
    };
    Lent {
        area,
        words: random.choose(words),
        bytes: random.choose(bytes),
    }
}

/// A record that is accepted. At least every other matrix has zeros in whole regions, so that many
/// of its turns are skipped.
pub fn good_record(random: &mut Random) -> Vec<u8> {
    let kinds: &[Kind] = if random.one_in(2) {
        &Kind::WITH_ZEROS
    } else {
        &Kind::ALL
    };
    let kind = random.choose(kinds);
    write_matrix(&kind.matrix(random)).to_vec()
}

/// A record of which three in four are accepted. The others are refused with 1, 2 or 4.
fn any_record(random: &mut Random) -> Vec<u8> {
    let mut record = good_record(random);
    match random.below(16) {
        0 => record[0] = random.choose(&[0, 2, 3, 0x81]),
        1 => record.truncate(random.choose(&[0, 1, 256])),
        2 => record.push(random.byte()),
        3 => (0..8).for_each(|k| record[1 + 36 * k..][..2].copy_from_slice(&[0, 16])),
        _ => {}
    }
    record
}

/// A job that test 5 refuses.
fn no_job(random: &mut Random) -> Job {
    let beyond = [121, 255, 256, 1 << 16, u32::MAX];
    let turn = random.below(121) as u32;
    match random.below(3) {
        0 => Job::new(turn, turn + 1),
        1 => Job::new(turn, random.choose(&beyond)),
        _ => Job::new(random.choose(&beyond), turn),
    }
}
