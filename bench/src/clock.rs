//! The core clock, found by timing work whose length in cycles is known. The time-stamp counter
//! would not do: it ticks at a fixed rate, whatever the core's clock is.

/// Cycles of a nanosecond, if the processor's kind is known.
#[cfg(target_arch = "x86_64")]
pub fn cycles_per_nanosecond() -> Option<f64> {
    use std::arch::asm;
    use std::time::Instant;

    /// Each multiplication waits for the one before it.
    const MULTIPLICATIONS: u32 = 20_000;
    /// What one takes on Intel's cores since Nehalem and on AMD's since Zen.
    const CYCLES: f64 = 3.0;

    let mut product = 3_u64;
    let start = Instant::now();
    for _ in 0..MULTIPLICATIONS {
        // SAFETY: one instruction on one register.
        unsafe { asm!("imul {0}, {0}", inout(reg) product, options(nomem, nostack)) };
    }
    let nanoseconds = start.elapsed().as_nanos() as f64;
    Some(f64::from(MULTIPLICATIONS) * CYCLES / nanoseconds)
}

/// Cycles of a nanosecond, if the processor's kind is known.
#[cfg(not(target_arch = "x86_64"))]
pub fn cycles_per_nanosecond() -> Option<f64> {
    None
}
