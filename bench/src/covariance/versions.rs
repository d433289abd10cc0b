//! The versions in C, as `build.rs` compiled them.

use super::contenders::Contender;

/// Declares the calls of covariance.h under a compiler's prefix, and makes implementations of them.
macro_rules! compiled {
    ($prefix:ident) => {
        mod $prefix {
            use hubqr::ffi::{AddReply, Snapshot, Sums};

            use crate::covariance::implementations::{ByValue, InPlace};

            extern "C" {
                #[link_name = concat!(stringify!($prefix), "_add_by_value")]
                fn add_by_value(snapshot: Snapshot, sums: Sums) -> AddReply;
                #[link_name = concat!(stringify!($prefix), "_write_by_value")]
                fn write_by_value(sums: Sums, buffer: *mut u8, buffer_len: usize) -> u8;
                #[link_name = concat!(stringify!($prefix), "_add_in_place")]
                fn add_in_place(sums: &mut Sums, snapshot: Snapshot) -> u8;
                #[link_name = concat!(stringify!($prefix), "_add_shared_halves")]
                fn add_shared_halves(sums: &mut Sums, snapshot: Snapshot) -> u8;
                #[link_name = concat!(stringify!($prefix), "_write_in_place")]
                fn write_in_place(sums: &Sums, buffer: *mut u8, buffer_len: usize) -> u8;
            }

            pub const BY_VALUE: ByValue = ByValue {
                add: add_by_value,
                write: write_by_value,
            };
            pub const IN_PLACE: InPlace = InPlace {
                add: add_in_place,
                write: write_in_place,
            };
            pub const SHARED_HALVES: InPlace = InPlace {
                add: add_shared_halves,
                write: write_in_place,
            };
        }
    };
}

compiled!(gcc_covariance);
#[cfg(clang)]
compiled!(clang_covariance);

/// The version that all others are compared with.
pub const BASE: Contender = Contender::new("C by value, gcc", &gcc_covariance::BY_VALUE);

/// Each shape by one compiler after the other.
pub fn all() -> Vec<Contender> {
    vec![
        BASE,
        #[cfg(clang)]
        Contender::new("C by value, clang", &clang_covariance::BY_VALUE),
        Contender::new("C in place, gcc", &gcc_covariance::IN_PLACE),
        #[cfg(clang)]
        Contender::new("C in place, clang", &clang_covariance::IN_PLACE),
        Contender::adding_alone("C shared halves, gcc", &gcc_covariance::SHARED_HALVES),
        #[cfg(clang)]
        Contender::adding_alone("C shared halves, clang", &clang_covariance::SHARED_HALVES),
    ]
}
