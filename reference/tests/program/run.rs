//! A program of the product, started with an input.

use std::env;
use std::fs::File;
use std::io::{ErrorKind, Read, Write};
use std::os::fd::OwnedFd;
use std::os::unix::net::UnixStream;
use std::path::{Path, PathBuf};
use std::process::{Child, Command, Stdio};
use std::thread;
use std::time::Duration;

#[derive(Clone, Copy)]
pub struct Program {
    name: &'static str,
    /// The variable of the environment that names another program.
    variable: &'static str,
}

pub const QR: Program = Program {
    name: "qr",
    variable: "HUBQR_QR",
};

pub const PAGE: Program = Program {
    name: "page",
    variable: "HUBQR_PAGE",
};

impl Program {
    fn path(self) -> PathBuf {
        let Program { name, variable } = self;
        let path = match env::var_os(variable) {
            Some(path) => path.into(),
            None => {
                let build = Path::new(env!("CARGO_MANIFEST_DIR")).join("../build");
                build.join(name)
            }
        };
        assert!(
            path.is_file(),
            "{} is not there: `make build/{name}` makes it, and {variable} names another program",
            path.display()
        );
        path
    }

    fn start(self, input: impl Into<Stdio>, output: impl Into<Stdio>) -> Child {
        let mut command = Command::new(self.path());
        command.stdin(input).stdout(output).stderr(Stdio::piped());
        command.spawn().expect("the program can be started")
    }

    /// What the program writes to an input that arrives in pieces, with a pause after each.
    pub fn output<'a>(
        self,
        pieces: impl IntoIterator<Item = &'a [u8]>,
        pause: Duration,
    ) -> Vec<u8> {
        let mut child = self.start(Stdio::piped(), Stdio::piped());
        let mut input = child.stdin.take().expect("the input is a pipe");
        for piece in pieces {
            match input.write_all(piece) {
                // The program stops reading once it knows that the input is too long.
                Err(error) if error.kind() == ErrorKind::BrokenPipe => break,
                written => written.expect("the pipe takes the input"),
            }
            thread::sleep(pause);
        }
        drop(input);
        written(child)
    }

    pub fn output_at_once(self, input: &[u8]) -> Vec<u8> {
        self.output([input], Duration::ZERO)
    }

    /// What the program writes to an input, and how many bytes of it are left when it ends. They
    /// are found at the program's end of a connection, which is held open here, too.
    pub fn output_and_rest(self, input: &[u8]) -> (Vec<u8>, usize) {
        let (mut near, mut far) = UnixStream::pair().expect("there can be a connection");
        let end = OwnedFd::from(far.try_clone().expect("it can be shared"));
        let child = self.start(end, Stdio::piped());
        near.write_all(input).expect("the connection takes it");
        drop(near);
        let written = written(child);
        let mut rest = Vec::new();
        far.read_to_end(&mut rest).expect("the rest can be read");
        (written, rest.len())
    }

    /// What the program says where nothing of its output can be written.
    pub fn complaint(self) -> String {
        let full = File::options().write(true).open("/dev/full");
        let child = self.start(Stdio::null(), full.expect("there is a full device"));
        let ended = child.wait_with_output().expect("the program ends");
        assert!(ended.status.success(), "{ended:?}");
        String::from_utf8(ended.stderr).expect("it is text")
    }
}

/// What a program writes until it ends, which it does with status 0 and without a message.
fn written(child: Child) -> Vec<u8> {
    let ended = child.wait_with_output().expect("the program ends");
    assert!(
        ended.status.success() && ended.stderr.is_empty(),
        "{ended:?}"
    );
    ended.stdout
}
