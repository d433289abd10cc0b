//! The versions in C, as `build.rs` compiled them.

use hubqr::Job;

use crate::contenders::{Clamps, Contender};

/// What Run of a version in C answers.
#[repr(C)]
pub struct RunReply {
    job: Job,
    clamps: Clamps,
}

/// What Whole of a version in C answers.
#[repr(C)]
pub struct WholeReply {
    heard: u8,
    clamps: Clamps,
}

/// Declares the calls of calls.c under a version's prefix, and makes a contender of them. What they
/// take pointers to is always a whole record, area or buffer.
macro_rules! version {
    ($version:ident, $name:literal) => {
        pub mod $version {
            use super::{Job, RunReply, WholeReply};
            use crate::contenders::{Area, Buffer, Contender, Record};

            extern "C" {
                #[link_name = concat!(stringify!($version), "_load")]
                fn load(record: &Record, area: &mut Area) -> u8;
                #[link_name = concat!(stringify!($version), "_run")]
                fn run(job: Job, allowance: u16, area: &mut Area) -> RunReply;
                #[link_name = concat!(stringify!($version), "_fetch")]
                fn fetch(area: &Area, buffer: &mut Buffer);
                #[link_name = concat!(stringify!($version), "_whole")]
                fn whole(record: &Record, area: &mut Area, buffer: &mut Buffer) -> WholeReply;
            }

            // SAFETY: the calls stay within what they are lent; `run` needs a turn number to 120.
            pub const CONTENDER: Contender = Contender {
                name: $name,
                load: |record, area| unsafe { load(record, area) },
                run: |Job { turn, made }, allowance, area| {
                    let turn = turn.min(hubqr::TURNS);
                    let reply = unsafe { run(Job { turn, made }, allowance, area) };
                    (reply.job, reply.clamps)
                },
                fetch: |area, buffer| unsafe { fetch(area, buffer) },
                whole: |record, area, buffer| {
                    let reply = unsafe { whole(record, area, buffer) };
                    (reply.heard, reply.clamps)
                },
            };
        }
    };
}

version!(gcc_plain, "C plain, gcc");
version!(gcc_wide, "C wide, gcc");
version!(gcc_narrow, "C narrow, gcc");
version!(gcc_narrow_v3, "C narrow, gcc, v3");
#[cfg(clang)]
version!(clang_plain, "C plain, clang");
#[cfg(clang)]
version!(clang_wide, "C wide, clang");
#[cfg(clang)]
version!(clang_narrow, "C narrow, clang");
#[cfg(clang)]
version!(clang_narrow_v3, "C narrow, clang, v3");

/// The versions that were compiled and that this processor can run, each shape by one compiler after
/// the other.
pub fn all() -> Vec<Contender> {
    let mut versions = vec![
        gcc_plain::CONTENDER,
        #[cfg(clang)]
        clang_plain::CONTENDER,
        gcc_wide::CONTENDER,
        #[cfg(clang)]
        clang_wide::CONTENDER,
        gcc_narrow::CONTENDER,
        #[cfg(clang)]
        clang_narrow::CONTENDER,
    ];
    if has_v3() {
        versions.push(gcc_narrow_v3::CONTENDER);
        #[cfg(clang)]
        versions.push(clang_narrow_v3::CONTENDER);
    }
    versions
}

/// Whether the processor is an x86-64-v3, whose vectors hold eight words of 32 bits.
pub fn has_v3() -> bool {
    is_x86_feature_detected!("avx2")
        && is_x86_feature_detected!("bmi1")
        && is_x86_feature_detected!("bmi2")
        && is_x86_feature_detected!("f16c")
        && is_x86_feature_detected!("fma")
        && is_x86_feature_detected!("lzcnt")
        && is_x86_feature_detected!("movbe")
}
