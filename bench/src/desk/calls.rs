//! Roles, calls, areas and desks of any kind, for which the desks have to agree.

use hubqr::ffi::Shares;
use hubqr::{
    Desk, Job, Role, AREA_WORDS, MATRIX_RECORD_BYTES, RESULT_RECORD_BYTES, SECTORS, TURNS,
};
use reference::random::Random;

use crate::contenders::{Area, Record, ENGINE};
use crate::inputs;

/// Numbers around those that decide: of turns, of requests, counts and shares, and of sectors.
const TURN_NUMBERS: [u32; 9] = [0, 1, 60, 118, 119, 120, 121, 256, u32::MAX];
const COUNTS: [u16; 10] = [0, 1, 15, 119, 120, 121, 256, 300, 1 << 13, u16::MAX];
const OTHER_SECTORS: [u32; 6] = [8, 255, 256, 263, 65_536, u32::MAX];

/// Numbers of no role. Cut to a byte or to 16 bits, some of them would be one.
const OTHER_ROLES: [u32; 7] = [3, 255, 256, 257, 258, 65_538, u32::MAX];

/// What begins a round, sets shares, or is for a sector, with words of the area: a hand-in of a record,
/// a Run with its request, or a Fetch with bytes of the buffer.
#[derive(Debug)]
pub enum Call {
    Begin,
    SetShares(Shares),
    HandIn(u32, Vec<u8>, usize),
    Run(u32, u16, usize),
    Fetch(u32, usize, usize),
}

impl Call {
    /// The sector that it is for, if it is for one.
    pub fn sector(&self) -> Option<u32> {
        match *self {
            Call::Begin | Call::SetShares(_) => None,
            Call::HandIn(sector, ..) | Call::Run(sector, ..) | Call::Fetch(sector, ..) => {
                Some(sector)
            }
        }
    }
}

/// The number of a role, most often of one that may make the call, or at times of none.
pub fn any_role(random: &mut Random, call: &Call) -> u32 {
    if random.one_in(20) {
        return random.choose(&OTHER_ROLES);
    }
    let role = match call {
        _ if random.one_in(8) => random.choose(&[Role::Viewer, Role::Fitter]),
        Call::Fetch(..) => random.choose(&[Role::Fitter, Role::Operator]),
        _ => Role::Operator,
    };
    role.number()
}

/// Most are of a sector, and of an area and a buffer long enough.
pub fn any_call(random: &mut Random) -> Call {
    if random.one_in(10) {
        return Call::Begin;
    }
    if random.one_in(10) {
        return Call::SetShares(any_shares(random));
    }
    let sector = match random.one_in(10) {
        true => random.choose(&OTHER_SECTORS),
        false => random.between(0, SECTORS as i64 - 1) as u32,
    };
    let words = any_length(random, AREA_WORDS);
    if random.one_in(4) {
        return Call::HandIn(sector, any_record(random), words);
    }
    if random.one_in(4) {
        return Call::Fetch(sector, words, any_length(random, RESULT_RECORD_BYTES));
    }
    let request = match random.one_in(2) {
        true => random.choose(&COUNTS),
        false => random.between(0, 20) as u16,
    };
    Call::Run(sector, request, words)
}

/// What is needed, or at times less.
fn any_length(random: &mut Random, needed: usize) -> usize {
    match random.one_in(20) {
        true => random.choose(&[0, needed - 1]),
        false => needed,
    }
}

/// Most are accepted. In some nobody is heard, the kind is another one, or bytes are missing.
fn any_record(random: &mut Random) -> Vec<u8> {
    let mut record = inputs::record(random).to_vec();
    if random.one_in(10) {
        for k in 0..8 {
            let part = random.choose(&[16i16, 0, -17]).to_be_bytes();
            record[1 + 36 * k..][..2].copy_from_slice(&part);
        }
    }
    if random.one_in(20) {
        record[0] = random.choose(&[0, 2, 3]);
    }
    record.truncate(any_length(random, MATRIX_RECORD_BYTES));
    record
}

/// Any words, or those of a finished result.
pub fn any_area(random: &mut Random) -> Area {
    if random.one_in(2) {
        return inputs::words(random);
    }
    let mut area = [0; AREA_WORDS];
    (ENGINE.load)(&inputs::finished(random), &mut area);
    area
}

/// Some are of any size. Of the others one has what makes a total around 120, or one that 16 bits
/// would cut to 0.
fn any_shares(random: &mut Random) -> Shares {
    if random.one_in(4) {
        return Shares {
            shares: std::array::from_fn(|_| random.choose(&COUNTS)),
        };
    }
    let mut shares: [u16; SECTORS] = std::array::from_fn(|_| random.between(0, 16) as u16);
    let place = random.below(SECTORS);
    shares[place] = 0;
    let total = random.choose(&[119, 120, 121, 65_536]);
    let rest = total - shares.iter().copied().map(u32::from).sum::<u32>();
    shares[place] = rest.try_into().unwrap_or(u16::MAX);
    Shares { shares }
}

/// A desk of any numbers. No calls lead to it, but calls have to take it. Each record passed the tests
/// of a hand-in: a desk that loads it by the engine's Load could not load another.
pub fn made_up(random: &mut Random) -> Desk {
    let records: [Record; SECTORS] = std::array::from_fn(|_| inputs::record(random));
    Desk {
        jobs: std::array::from_fn(|_| any_job(random)),
        heard: std::array::from_fn(|_| random.word() as u8),
        shares: std::array::from_fn(|_| random.choose(&COUNTS)),
        left: std::array::from_fn(|_| random.choose(&COUNTS)),
        waits: std::array::from_fn(|_| random.choose(&[0, 1, 2, 255])),
        records: std::array::from_fn(|k| records.as_flattened()[k]),
    }
}

/// Some are finished.
fn any_job(random: &mut Random) -> Job {
    let number = |random: &mut Random| match random.one_in(2) {
        true => random.choose(&TURN_NUMBERS),
        false => random.between(0, TURNS.into()) as u32,
    };
    let turn = match random.one_in(4) {
        true => TURNS,
        false => number(random),
    };
    let made = number(random);
    Job { turn, made }
}
