//! Writing to standard output so that what is lost is noticed.
use std::io::{self, ErrorKind, Write};

use crate::failure::Failure;
use crate::Output;

/// Writes what a command has to say, and answers whether all of it arrived. A reader of a text that
/// stops early, as `head` does, needs no message; a record that is not taken is a failure.
pub fn write(output: &Output) -> Result<bool, Failure> {
    if closed::at_start() {
        let message = "standard output is closed, so nothing could be written to it";
        return Err(Failure::Input(message.into()));
    }
    let bytes = match output {
        Output::Text(text) => text.as_bytes(),
        Output::Record(bytes) => bytes,
    };
    let mut stdout = io::stdout().lock();
    match stdout.write_all(bytes).and_then(|()| stdout.flush()) {
        Ok(()) => Ok(true),
        Err(error) if is_text(output) && error.kind() == ErrorKind::BrokenPipe => Ok(false),
        Err(error) => Err(Failure::Input(format!("standard output: {error}"))),
    }
}

fn is_text(output: &Output) -> bool {
    matches!(output, Output::Text(_))
}

/// Whether the program was started with standard output closed (`>&-` in a shell). Rust opens
/// /dev/null in its place before `main` begins, and every write then succeeds; so this looks before,
/// among the functions that an ELF program runs at its very start.
#[cfg(target_os = "linux")]
mod closed {
    use std::ffi::c_int;
    use std::sync::atomic::{AtomicBool, Ordering};

    const STANDARD_OUTPUT: c_int = 1;
    const F_GETFD: c_int = 1;

    static CLOSED: AtomicBool = AtomicBool::new(false);

    extern "C" {
        fn fcntl(file: c_int, command: c_int, ...) -> c_int;
    }

    #[used]
    #[link_section = ".init_array"]
    static LOOK: extern "C" fn() = look;

    extern "C" fn look() {
        // SAFETY: F_GETFD takes no further argument and any number for a file; it fails where none
        // is open under that number, and changes nothing.
        let flags = unsafe { fcntl(STANDARD_OUTPUT, F_GETFD) };
        CLOSED.store(flags == -1, Ordering::Relaxed);
    }

    pub fn at_start() -> bool {
        CLOSED.load(Ordering::Relaxed)
    }
}

#[cfg(not(target_os = "linux"))]
mod closed {
    pub fn at_start() -> bool {
        false
    }
}
