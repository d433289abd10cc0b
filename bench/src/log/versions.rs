//! The version in C, as `build.rs` compiled it, and the log of an earlier archive, whose calls it gave
//! other names.

/// Declares the calls of log.h under another prefix, and makes a contender of them.
macro_rules! compiled {
    ($prefix:ident, $name:literal) => {
        pub mod $prefix {
            use hubqr::ffi::{LogEntry, LogReply};

            use crate::log::contenders::Contender;

            extern "C" {
                #[link_name = concat!(stringify!($prefix), "_log_add")]
                fn log_add(
                    kind: u32,
                    day: u32,
                    body: *const u8,
                    body_len: usize,
                    used: usize,
                    buffer: *mut u8,
                    buffer_len: usize,
                ) -> LogReply;
                #[link_name = concat!(stringify!($prefix), "_log_sweep")]
                fn log_sweep(day: u32, used: usize, buffer: *mut u8, buffer_len: usize)
                    -> LogReply;
                #[link_name = concat!(stringify!($prefix), "_log_next")]
                fn log_next(
                    at: usize,
                    used: usize,
                    buffer: *const u8,
                    buffer_len: usize,
                ) -> LogEntry;
            }

            pub const CONTENDER: Contender = Contender {
                name: $name,
                // SAFETY: the call reads the body, and reads and writes the buffer alone.
                add: |kind, day, body, used, buffer| {
                    let (body, length) = (body.as_ptr(), body.len());
                    let (buffer, bytes) = (buffer.as_mut_ptr(), buffer.len());
                    unsafe { log_add(kind, day, body, length, used, buffer, bytes) }
                },
                // SAFETY: the call reads and writes the buffer alone.
                sweep: |day, used, buffer| unsafe {
                    log_sweep(day, used, buffer.as_mut_ptr(), buffer.len())
                },
                // SAFETY: the call reads the buffer alone.
                next: |at, used, buffer| unsafe {
                    log_next(at, used, buffer.as_ptr(), buffer.len())
                },
            };
        }
    };
}

compiled!(gcc_log, "C, gcc");
#[cfg(clang)]
compiled!(clang_log, "C, clang");
#[cfg(earlier)]
compiled!(earlier_hubqr, "engine, earlier");
