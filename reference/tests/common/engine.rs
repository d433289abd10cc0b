//! The engine's calls, with what they are handed and answer as the reference has it.
//!
//! What the engine only reads is lent as writable, too, so that a forbidden write would be seen.

use hubqr::ffi;
use reference::clamps::Clamps;
use reference::covariance::Snapshot;
use reference::desk::{Desk, DeskReply, Seat, SECTORS};
use reference::job::Job;
use reference::log::{EntryReply, LogReply};
use reference::records::MATRIX_RECORD;
use reference::replies::{FetchReply, LoadReply, ReadReply, RunReply, WholeReply};
use reference::verify::VerifyReply;
use reference::weights::WeightsReply;

use super::weights::Targets;

fn handed(Job { turn, made }: Job) -> ffi::Job {
    ffi::Job { turn, made }
}

fn answered(ffi::Job { turn, made }: ffi::Job) -> Job {
    Job { turn, made }
}

// SAFETY of all calls: the pointers and lengths come from live slices that do not overlap; what is
// handed over by value may be anything.

pub fn load(record: &mut [u8], area: &mut [i32]) -> LoadReply {
    let reply = unsafe {
        ffi::hubqr_load(
            record.as_mut_ptr(),
            record.len(),
            area.as_mut_ptr(),
            area.len(),
        )
    };
    LoadReply {
        number: reply.number,
        heard: reply.heard,
        job: answered(reply.job),
    }
}

pub fn run(job: Job, allowance: u16, area: &mut [i32]) -> RunReply {
    let (job, words) = (handed(job), area.len());
    let reply = unsafe { ffi::hubqr_run(job, allowance, area.as_mut_ptr(), words) };
    RunReply {
        number: reply.number,
        job: answered(reply.job),
        count: reply.count,
        clamps: Clamps {
            r: reply.clamps_r,
            q: reply.clamps_q,
        },
    }
}

pub fn fetch(job: Job, area: &mut [i32], buffer: &mut [u8]) -> FetchReply {
    let number = unsafe {
        ffi::hubqr_fetch(
            handed(job),
            area.as_mut_ptr(),
            area.len(),
            buffer.as_mut_ptr(),
            buffer.len(),
        )
    };
    FetchReply { number }
}

pub fn read(record: &mut [u8], area: &mut [i32]) -> ReadReply {
    let reply = unsafe {
        ffi::hubqr_read(
            record.as_mut_ptr(),
            record.len(),
            area.as_mut_ptr(),
            area.len(),
        )
    };
    ReadReply {
        number: reply.number,
        job: answered(reply.job),
    }
}

pub fn whole(record: &mut [u8], area: &mut [i32], buffer: &mut [u8]) -> WholeReply {
    let reply = unsafe {
        ffi::hubqr_whole(
            record.as_mut_ptr(),
            record.len(),
            area.as_mut_ptr(),
            area.len(),
            buffer.as_mut_ptr(),
            buffer.len(),
        )
    };
    WholeReply {
        number: reply.number,
        heard: reply.heard,
        clamps: Clamps {
            r: reply.clamps_r,
            q: reply.clamps_q,
        },
    }
}

pub fn sums_none() -> ffi::Sums {
    unsafe { ffi::hubqr_sums_none() }
}

pub fn add_snapshot(snapshot: &Snapshot, sums: ffi::Sums) -> (u8, ffi::Sums) {
    let samples = snapshot.map(|sample| ffi::Sample {
        re: sample.re,
        im: sample.im,
    });
    let reply = unsafe { ffi::hubqr_add_snapshot(ffi::Snapshot { samples }, sums) };
    (reply.number, reply.sums)
}

pub fn write_matrix(sums: ffi::Sums, buffer: &mut [u8]) -> u8 {
    unsafe { ffi::hubqr_write_matrix(sums, buffer.as_mut_ptr(), buffer.len()) }
}

pub fn weights(record: &mut [u8], targets: &Targets) -> WeightsReply {
    let samples = targets.map(|(re, im)| ffi::Sample { re, im });
    let targets = ffi::Snapshot { samples };
    let reply = unsafe { ffi::hubqr_weights(record.as_mut_ptr(), record.len(), targets) };
    WeightsReply {
        number: reply.number,
        weights: reply.weights.map(|weight| (weight.re, weight.im)),
    }
}

/// Nothing stands for yes but 1, and nothing for no but 0.
pub fn verify(matrix: &mut [u8], result: &mut [u8]) -> VerifyReply {
    let ffi::Verdict { number, yes } = unsafe {
        ffi::hubqr_verify(
            matrix.as_mut_ptr(),
            matrix.len(),
            result.as_mut_ptr(),
            result.len(),
        )
    };
    assert!(yes <= 1, "{yes} is neither yes nor no");
    VerifyReply {
        number,
        yes: yes == 1,
    }
}

fn answered_log(ffi::LogReply { number, used }: ffi::LogReply) -> LogReply {
    LogReply { number, used }
}

pub fn log_add(kind: u32, day: u32, body: &mut [u8], used: usize, buffer: &mut [u8]) -> LogReply {
    answered_log(unsafe {
        ffi::hubqr_log_add(
            kind,
            day,
            body.as_mut_ptr(),
            body.len(),
            used,
            buffer.as_mut_ptr(),
            buffer.len(),
        )
    })
}

pub fn log_sweep(day: u32, used: usize, buffer: &mut [u8]) -> LogReply {
    answered_log(unsafe { ffi::hubqr_log_sweep(day, used, buffer.as_mut_ptr(), buffer.len()) })
}

pub fn log_next(at: usize, used: usize, buffer: &mut [u8]) -> EntryReply {
    let reply = unsafe { ffi::hubqr_log_next(at, used, buffer.as_mut_ptr(), buffer.len()) };
    EntryReply {
        number: reply.number,
        kind: reply.kind,
        day: reply.day,
        body: reply.body,
        body_len: reply.body_len,
        next: reply.next,
    }
}

/// Of all sectors, the jobs, the heard bytes, the shares, what they have left, whether a matrix waits,
/// and the room for it.
fn handed_desk(Desk { seats }: &Desk) -> ffi::Desk {
    let mut records = [0; SECTORS * MATRIX_RECORD];
    for (room, seat) in records.chunks_exact_mut(MATRIX_RECORD).zip(seats) {
        room.copy_from_slice(&seat.record);
    }
    ffi::Desk {
        jobs: seats.each_ref().map(|seat| handed(seat.job)),
        heard: seats.each_ref().map(|seat| seat.heard),
        shares: seats.each_ref().map(|seat| seat.share),
        left: seats.each_ref().map(|seat| seat.left),
        waits: seats.each_ref().map(|seat| seat.waits),
        records,
    }
}

fn answered_desk(desk: ffi::Desk) -> Desk {
    let room = |k: usize| desk.records[MATRIX_RECORD * k..].first_chunk().copied();
    let seat = |k| Seat {
        job: answered(desk.jobs[k]),
        heard: desk.heard[k],
        share: desk.shares[k],
        left: desk.left[k],
        waits: desk.waits[k],
        record: room(k).expect("the desk has room for eight records"),
    };
    Desk {
        seats: std::array::from_fn(seat),
    }
}

pub fn desk_new() -> Desk {
    answered_desk(unsafe { ffi::hubqr_desk_new() })
}

pub fn desk_begin(role: u32, desk: &Desk) -> DeskReply {
    let reply = unsafe { ffi::hubqr_desk_begin(role, handed_desk(desk)) };
    DeskReply {
        number: reply.number,
        ..DeskReply::from(answered_desk(reply.desk))
    }
}

pub fn desk_set_shares(role: u32, desk: &Desk, shares: [u16; SECTORS]) -> DeskReply {
    let shares = ffi::Shares { shares };
    let reply = unsafe { ffi::hubqr_desk_set_shares(role, handed_desk(desk), shares) };
    DeskReply {
        number: reply.number,
        ..DeskReply::from(answered_desk(reply.desk))
    }
}

pub fn desk_hand_in(
    role: u32,
    desk: &Desk,
    sector: u32,
    record: &mut [u8],
    area: &mut [i32],
) -> DeskReply {
    let reply = unsafe {
        ffi::hubqr_desk_hand_in(
            role,
            handed_desk(desk),
            sector,
            record.as_mut_ptr(),
            record.len(),
            area.as_mut_ptr(),
            area.len(),
        )
    };
    DeskReply {
        number: reply.number,
        heard: reply.heard,
        job: answered(reply.job),
        ..DeskReply::from(answered_desk(reply.desk))
    }
}

pub fn desk_run(role: u32, desk: &Desk, sector: u32, request: u16, area: &mut [i32]) -> DeskReply {
    let (desk, words) = (handed_desk(desk), area.len());
    let area = area.as_mut_ptr();
    let reply = unsafe { ffi::hubqr_desk_run(role, desk, sector, request, area, words) };
    DeskReply {
        number: reply.number,
        job: answered(reply.job),
        count: reply.count,
        clamps: Clamps {
            r: reply.clamps_r,
            q: reply.clamps_q,
        },
        ..DeskReply::from(answered_desk(reply.desk))
    }
}

pub fn desk_fetch(
    role: u32,
    desk: &Desk,
    sector: u32,
    area: &mut [i32],
    buffer: &mut [u8],
) -> DeskReply {
    let reply = unsafe {
        ffi::hubqr_desk_fetch(
            role,
            handed_desk(desk),
            sector,
            area.as_mut_ptr(),
            area.len(),
            buffer.as_mut_ptr(),
            buffer.len(),
        )
    };
    DeskReply {
        number: reply.number,
        ..DeskReply::from(answered_desk(reply.desk))
    }
}

pub fn desk_heard(role: u32, desk: &Desk, sector: u32) -> DeskReply {
    let reply = unsafe { ffi::hubqr_desk_heard(role, handed_desk(desk), sector) };
    DeskReply {
        number: reply.number,
        heard: reply.heard,
        ..DeskReply::from(answered_desk(reply.desk))
    }
}
