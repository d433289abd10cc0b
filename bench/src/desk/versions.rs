//! The version in C, as `build.rs` compiled it, and the desk of an earlier archive, whose calls it
//! gave other names.

/// Declares the calls of desk.h under another prefix, and makes a contender of them.
macro_rules! compiled {
    ($prefix:ident, $name:literal) => {
        pub mod $prefix {
            use hubqr::ffi::{DeskLoadReply, DeskReply, DeskRunReply, Shares};
            use hubqr::Desk;

            use crate::desk::contenders::{handed_in, kept, ran, Contender};

            extern "C" {
                #[link_name = concat!(stringify!($prefix), "_desk_begin")]
                fn desk_begin(role: u32, desk: Desk) -> DeskReply;
                #[link_name = concat!(stringify!($prefix), "_desk_set_shares")]
                fn desk_set_shares(role: u32, desk: Desk, shares: Shares) -> DeskReply;
                #[link_name = concat!(stringify!($prefix), "_desk_hand_in")]
                fn desk_hand_in(
                    role: u32,
                    desk: Desk,
                    sector: u32,
                    record: *const u8,
                    record_len: usize,
                    area: *mut i32,
                    area_len: usize,
                ) -> DeskLoadReply;
                #[link_name = concat!(stringify!($prefix), "_desk_run")]
                fn desk_run(
                    role: u32,
                    desk: Desk,
                    sector: u32,
                    request: u16,
                    area: *mut i32,
                    area_len: usize,
                ) -> DeskRunReply;
                #[link_name = concat!(stringify!($prefix), "_desk_fetch")]
                fn desk_fetch(
                    role: u32,
                    desk: Desk,
                    sector: u32,
                    area: *mut i32,
                    area_len: usize,
                    buffer: *mut u8,
                    buffer_len: usize,
                ) -> DeskReply;
            }

            pub const CONTENDER: Contender = Contender {
                name: $name,
                // SAFETY: the call takes and answers values alone.
                begin: |role, desk| kept(desk, |desk| unsafe { desk_begin(role, desk) }),
                // SAFETY: the call takes and answers values alone.
                set_shares: |role, desk, shares| {
                    kept(desk, |desk| unsafe { desk_set_shares(role, desk, shares) })
                },
                // SAFETY: the call reads the record, and writes the area alone.
                hand_in: |role, desk, sector, record, area| {
                    let (bytes, length) = (record.as_ptr(), record.len());
                    let (words, count) = (area.as_mut_ptr(), area.len());
                    handed_in(desk, |desk| unsafe {
                        desk_hand_in(role, desk, sector, bytes, length, words, count)
                    })
                },
                // SAFETY: the call reads and writes the area alone.
                run: |role, desk, sector, request, area| {
                    let (words, length) = (area.as_mut_ptr(), area.len());
                    ran(desk, |desk| unsafe {
                        desk_run(role, desk, sector, request, words, length)
                    })
                },
                // SAFETY: the call reads and writes the area, and writes the buffer.
                fetch: |role, desk, sector, area, buffer| {
                    let (words, count) = (area.as_mut_ptr(), area.len());
                    let (bytes, length) = (buffer.as_mut_ptr(), buffer.len());
                    kept(desk, |desk| unsafe {
                        desk_fetch(role, desk, sector, words, count, bytes, length)
                    })
                },
            };
        }
    };
}

compiled!(gcc_desk, "C, gcc");
#[cfg(clang)]
compiled!(clang_desk, "C, clang");
#[cfg(earlier)]
compiled!(earlier_hubqr, "engine, earlier");
