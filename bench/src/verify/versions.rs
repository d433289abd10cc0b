//! The version in C, as `build.rs` compiled it.

/// Declares the call of verify.h under a compiler's prefix, and makes a contender of it.
macro_rules! compiled {
    ($prefix:ident, $name:literal) => {
        pub mod $prefix {
            use hubqr::ffi::Verdict;

            use crate::verify::contenders::Contender;

            extern "C" {
                #[link_name = concat!(stringify!($prefix), "_verify")]
                fn verify(
                    matrix: *const u8,
                    matrix_len: usize,
                    result: *const u8,
                    result_len: usize,
                ) -> Verdict;
            }

            pub const CONTENDER: Contender = Contender {
                name: $name,
                // SAFETY: the call reads the two records alone.
                verify: |matrix, result| unsafe {
                    verify(matrix.as_ptr(), matrix.len(), result.as_ptr(), result.len())
                },
            };
        }
    };
}

compiled!(gcc_verify, "C, gcc");
#[cfg(clang)]
compiled!(clang_verify, "C, clang");
