//! An earlier archive of the engine, whose calls `build.rs` gave other names.

use hubqr::ffi::{AddReply, LoadReply, RunReply, Snapshot, Sums};
use hubqr::ffi::{Verdict, WeightsReply, WholeReply};
use hubqr::Job;

use crate::contenders::{Area, Buffer, Clamps, Contender, Record, FINISHED};
use crate::covariance::implementations::ByValue;
use crate::verify::contenders::Contender as VerifyContender;
use crate::weights::contenders::Contender as WeightsContender;

extern "C" {
    fn earlier_hubqr_version() -> u32;
    fn earlier_hubqr_load(
        record: &Record,
        record_len: usize,
        area: &mut Area,
        area_len: usize,
    ) -> LoadReply;
    fn earlier_hubqr_run(job: Job, allowance: u16, area: &mut Area, area_len: usize) -> RunReply;
    fn earlier_hubqr_fetch(
        job: Job,
        area: &Area,
        area_len: usize,
        buffer: &mut Buffer,
        buffer_len: usize,
    ) -> u8;
    fn earlier_hubqr_whole(
        record: &Record,
        record_len: usize,
        area: &mut Area,
        area_len: usize,
        buffer: &mut Buffer,
        buffer_len: usize,
    ) -> WholeReply;
    fn earlier_hubqr_add_snapshot(snapshot: Snapshot, sums: Sums) -> AddReply;
    fn earlier_hubqr_write_matrix(sums: Sums, buffer: *mut u8, buffer_len: usize) -> u8;
    fn earlier_hubqr_weights(
        record: *const u8,
        record_len: usize,
        targets: Snapshot,
    ) -> WeightsReply;
    fn earlier_hubqr_verify(
        matrix: *const u8,
        matrix_len: usize,
        result: *const u8,
        result_len: usize,
    ) -> Verdict;
}

pub const CONTENDER: Contender = Contender {
    name: "engine, earlier",
    load,
    run,
    fetch,
    whole,
};

pub const ADDING: ByValue = ByValue {
    add: earlier_hubqr_add_snapshot,
    write: earlier_hubqr_write_matrix,
};

pub const WEIGHTS: WeightsContender = WeightsContender {
    name: "engine, earlier",
    weights: |record, targets| unsafe {
        earlier_hubqr_weights(record.as_ptr(), record.len(), targets)
    },
};

pub const VERIFY: VerifyContender = VerifyContender {
    name: "engine, earlier",
    verify: |matrix, result| unsafe {
        earlier_hubqr_verify(matrix.as_ptr(), matrix.len(), result.as_ptr(), result.len())
    },
};

/// Says so where the earlier archive's calls and replies may be others than those that are declared
/// here, or go by other rules, as the heard byte and a clear turn may. The patch is what versions of
/// the same face differ in.
pub fn check_face() -> Result<(), String> {
    // SAFETY: the call takes nothing.
    let earlier = unsafe { earlier_hubqr_version() };
    if earlier / 100 == hubqr::VERSION / 100 {
        return Ok(());
    }
    let name = |version| format!("{}.{}.x", version / 10_000, version / 100 % 100);
    Err(format!(
        "the earlier archive is of version {}, this benchmark calls archives of version {}",
        name(earlier),
        name(hubqr::VERSION)
    ))
}

// SAFETY of all calls: the lengths are those of the arrays, which do not overlap, and nothing is
// called before `check_face` has found the replies to be these.

fn load(record: &Record, area: &mut Area) -> u8 {
    let reply = unsafe { earlier_hubqr_load(record, record.len(), area, area.len()) };
    reply.heard
}

fn run(job: Job, allowance: u16, area: &mut Area) -> (Job, Clamps) {
    let reply = unsafe { earlier_hubqr_run(job, allowance, area, area.len()) };
    let clamps = Clamps {
        r: reply.clamps_r,
        q: reply.clamps_q,
    };
    (reply.job, clamps)
}

fn fetch(area: &Area, buffer: &mut Buffer) {
    unsafe { earlier_hubqr_fetch(FINISHED, area, area.len(), buffer, buffer.len()) };
}

fn whole(record: &Record, area: &mut Area, buffer: &mut Buffer) -> (u8, Clamps) {
    let (words, bytes) = (area.len(), buffer.len());
    let reply = unsafe { earlier_hubqr_whole(record, record.len(), area, words, buffer, bytes) };
    let clamps = Clamps {
        r: reply.clamps_r,
        q: reply.clamps_q,
    };
    (reply.heard, clamps)
}
