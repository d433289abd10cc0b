//! Who is timed: desks, which have to agree in every field of the reply and every word of the area,
//! and the engine without a desk.

use hubqr::ffi::{self, DeskLoadReply, DeskReply, DeskRunReply, LoadReply, RunReply, Shares};
use hubqr::{Desk, MATRIX_RECORD_BYTES};

use super::{agree, versions};

/// An implementation under the name that the table has. It takes any number for the role, which comes
/// first, any desk whose matrices passed the tests of a hand-in, and any sector, record, request and
/// lengths.
#[derive(Clone, Copy)]
pub struct Contender {
    pub name: &'static str,
    /// Begins a round, and answers the number. As all calls, it leaves the desk as the host keeps it
    /// for the next one.
    pub begin: fn(u32, &mut Desk) -> u8,
    /// Sets all shares, and answers the number.
    pub set_shares: fn(u32, &mut Desk, Shares) -> u8,
    /// Hands in a sector's record.
    pub hand_in: fn(u32, &mut Desk, u32, &[u8], &mut [i32]) -> LoadReply,
    /// A sector's Run.
    pub run: fn(u32, &mut Desk, u32, u16, &mut [i32]) -> RunReply,
    /// A sector's Fetch, which answers the number.
    pub fetch: fn(u32, &mut Desk, u32, &mut [i32], &mut [u8]) -> u8,
}

impl Contender {
    /// The first disagreement with the engine, if there is one.
    pub fn check(&self, seed: u64) -> Result<(), String> {
        let checked = agree::check(self, seed);
        checked.map_err(|at| format!("{} and the engine differ on {at}", self.name))
    }
}

/// Keeps the desk of a call that takes and answers it by value, and answers the number.
pub fn kept(desk: &mut Desk, call: impl FnOnce(Desk) -> DeskReply) -> u8 {
    let reply = call(desk.clone());
    *desk = reply.desk;
    reply.number
}

/// Hands in by a call that takes and answers the desk by value. The reply is that of a Load without it.
pub fn handed_in(desk: &mut Desk, hand_in: impl FnOnce(Desk) -> DeskLoadReply) -> LoadReply {
    let reply = hand_in(desk.clone());
    *desk = reply.desk;
    LoadReply {
        number: reply.number,
        heard: reply.heard,
        job: reply.job,
    }
}

/// Runs by a call that takes and answers the desk by value. The reply is that of a Run without it.
pub fn ran(desk: &mut Desk, run: impl FnOnce(Desk) -> DeskRunReply) -> RunReply {
    let reply = run(desk.clone());
    *desk = reply.desk;
    RunReply {
        number: reply.number,
        job: reply.job,
        count: reply.count,
        clamps_r: reply.clamps_r,
        clamps_q: reply.clamps_q,
    }
}

/// The archive that a host links, called as the versions in C are.
pub const ENGINE: Contender = Contender {
    name: "engine",
    // SAFETY: the call takes and answers values alone.
    begin: |role, desk| kept(desk, |desk| unsafe { ffi::hubqr_desk_begin(role, desk) }),
    // SAFETY: the call takes and answers values alone.
    set_shares: |role, desk, shares| {
        kept(desk, |desk| unsafe {
            ffi::hubqr_desk_set_shares(role, desk, shares)
        })
    },
    // SAFETY: the call reads the record, and writes the area alone.
    hand_in: |role, desk, sector, record, area| {
        let (bytes, words) = (record.len(), area.len());
        handed_in(desk, |desk| unsafe {
            ffi::hubqr_desk_hand_in(
                role,
                desk,
                sector,
                record.as_ptr(),
                bytes,
                area.as_mut_ptr(),
                words,
            )
        })
    },
    // SAFETY: the call reads and writes the area alone.
    run: |role, desk, sector, request, area| {
        let (words, length) = (area.as_mut_ptr(), area.len());
        ran(desk, |desk| unsafe {
            ffi::hubqr_desk_run(role, desk, sector, request, words, length)
        })
    },
    // SAFETY: the call reads and writes the area, and writes the buffer.
    fetch: |role, desk, sector, area, buffer| {
        let (words, bytes) = (area.len(), buffer.len());
        kept(desk, |desk| unsafe {
            ffi::hubqr_desk_fetch(
                role,
                desk,
                sector,
                area.as_mut_ptr(),
                words,
                buffer.as_mut_ptr(),
                bytes,
            )
        })
    },
};

/// The engine's own calls, for a host that keeps the jobs of its sectors and a record that waits for
/// each, and nothing else: it has neither roles nor rounds nor shares. All others are compared with it.
pub const BASE: Contender = Contender {
    name: "engine, no desk",
    begin: |_, _| 0,
    set_shares: |_, _, _| 0,
    hand_in: |_, desk, sector, record, area| {
        let reply = load(record, area);
        desk.jobs[sector as usize] = reply.job;
        reply
    },
    // SAFETY: the call reads and writes the area alone.
    run: |_, desk, sector, request, area| {
        let job = &mut desk.jobs[sector as usize];
        let reply = unsafe { ffi::hubqr_run(*job, request, area.as_mut_ptr(), area.len()) };
        *job = reply.job;
        reply
    },
    fetch: |_, desk, sector, area, buffer| {
        let sector = sector as usize;
        let (words, bytes) = (area.len(), buffer.len());
        let (job, target) = (desk.jobs[sector], buffer.as_mut_ptr());
        // SAFETY: the call reads the area, and writes the buffer alone.
        let number = unsafe { ffi::hubqr_fetch(job, area.as_ptr(), words, target, bytes) };
        if desk.waits[sector] == 0 {
            return number;
        }
        let start = MATRIX_RECORD_BYTES * sector;
        let reply = load(&desk.records[start..start + MATRIX_RECORD_BYTES], area);
        desk.jobs[sector] = reply.job;
        desk.waits[sector] = 0;
        number | reply.number
    },
};

/// The engine's own Load.
fn load(record: &[u8], area: &mut [i32]) -> LoadReply {
    let (bytes, words) = (record.len(), area.len());
    // SAFETY: the call reads the record, and writes the area alone.
    unsafe { ffi::hubqr_load(record.as_ptr(), bytes, area.as_mut_ptr(), words) }
}

/// The desks that this build has, the engine's first.
pub fn desks() -> Vec<Contender> {
    vec![
        ENGINE,
        #[cfg(earlier)]
        versions::earlier_hubqr::CONTENDER,
        versions::gcc_desk::CONTENDER,
        #[cfg(clang)]
        versions::clang_desk::CONTENDER,
    ]
}

/// All who are timed.
pub fn all() -> Vec<Contender> {
    let mut all = desks();
    all.push(BASE);
    all
}
