//! Who is timed: implementations that have to agree in every field of their replies and in every byte of
//! the buffer.

use hubqr::ffi::{self, LogEntry, LogReply};

use super::{agree, versions};

/// An implementation under the name that the table has. It takes any used count and any buffer.
#[derive(Clone, Copy)]
pub struct Contender {
    pub name: &'static str,
    /// Kind, day, body, used count and buffer.
    pub add: fn(u32, u32, &[u8], usize, &mut [u8]) -> LogReply,
    /// Day, used count and buffer.
    pub sweep: fn(u32, usize, &mut [u8]) -> LogReply,
    /// Place, used count and buffer.
    pub next: fn(usize, usize, &[u8]) -> LogEntry,
}

impl Contender {
    /// The first disagreement with the engine, if there is one.
    pub fn check(&self, seed: u64) -> Result<(), String> {
        let checked = agree::check(self, seed);
        checked.map_err(|at| format!("{} and the engine differ on {at}", self.name))
    }
}

/// The archive that a host links, called as the versions in C are.
pub const ENGINE: Contender = Contender {
    name: "engine",
    // SAFETY: the call reads the body, and reads and writes the buffer alone.
    add: |kind, day, body, used, buffer| {
        let (body, length) = (body.as_ptr(), body.len());
        let (buffer, bytes) = (buffer.as_mut_ptr(), buffer.len());
        unsafe { ffi::hubqr_log_add(kind, day, body, length, used, buffer, bytes) }
    },
    // SAFETY: the call reads and writes the buffer alone.
    sweep: |day, used, buffer| unsafe {
        ffi::hubqr_log_sweep(day, used, buffer.as_mut_ptr(), buffer.len())
    },
    // SAFETY: the call reads the buffer alone.
    next: |at, used, buffer| unsafe {
        ffi::hubqr_log_next(at, used, buffer.as_ptr(), buffer.len())
    },
};

/// The version that all others are compared with.
pub const BASE: Contender = versions::gcc_log::CONTENDER;

/// All that this build has, the engine first.
pub fn all() -> Vec<Contender> {
    vec![
        ENGINE,
        #[cfg(earlier)]
        versions::earlier_hubqr::CONTENDER,
        BASE,
        #[cfg(clang)]
        versions::clang_log::CONTENDER,
    ]
}
