//! The version in C, as `build.rs` compiled it.

/// Declares the call of weights.h under a compiler's prefix, and makes a contender of it.
macro_rules! compiled {
    ($prefix:ident, $name:literal) => {
        pub mod $prefix {
            use hubqr::ffi::{Snapshot, WeightsReply};

            use crate::weights::contenders::Contender;

            extern "C" {
                #[link_name = concat!(stringify!($prefix), "_weights")]
                fn weights(record: *const u8, record_len: usize, targets: Snapshot)
                    -> WeightsReply;
            }

            pub const CONTENDER: Contender = Contender {
                name: $name,
                // SAFETY: the call reads the record alone.
                weights: |record, targets| unsafe {
                    weights(record.as_ptr(), record.len(), targets)
                },
            };
        }
    };
}

compiled!(gcc_weights, "C, gcc");
#[cfg(clang)]
compiled!(clang_weights, "C, clang");
