//! Running the program in a folder of its own, and records to give it.
use std::fs;
use std::io::Write;
use std::os::unix::fs::PermissionsExt;
use std::path::PathBuf;
use std::process::{Child, Command, Output, Stdio};

use hubqr::{AREA_WORDS, KIND_MATRIX, MATRIX_RECORD_BYTES, RESULT_RECORD_BYTES};

/// No line that is printed for people is longer, but for sentences.
pub const WIDEST: usize = 100;

/// The verdicts of the engine, as check and verify print them.
pub const YES: &str = "yes: Q times R and the rows of Q are within their limits";
pub const NO: &str = "no: Q times R or the rows of Q are outside their limits";

/// What a run of the program left.
pub struct Outcome {
    pub status: i32,
    pub stdout: Vec<u8>,
    pub stderr: String,
}

impl Outcome {
    fn of(output: Output) -> Outcome {
        Outcome {
            status: output.status.code().unwrap(),
            stdout: output.stdout,
            stderr: String::from_utf8(output.stderr).unwrap(),
        }
    }

    fn of_child(mut child: Child, input: &[u8]) -> Outcome {
        // A program that does not read its input may have ended by now.
        let _ = child.stdin.take().unwrap().write_all(input);
        Outcome::of(child.wait_with_output().unwrap())
    }

    pub fn text(&self) -> &str {
        std::str::from_utf8(&self.stdout).unwrap()
    }
}

/// A folder in which a test runs the program.
pub struct Folder {
    path: PathBuf,
}

impl Folder {
    /// An empty folder. Each test has a name of its own.
    pub fn new(name: &str) -> Folder {
        let path = PathBuf::from(env!("CARGO_TARGET_TMPDIR")).join(name);
        if path.exists() {
            fs::remove_dir_all(&path).unwrap();
        }
        fs::create_dir_all(&path).unwrap();
        Folder { path }
    }

    pub fn path(&self, name: &str) -> PathBuf {
        self.path.join(name)
    }

    pub fn set_mode(&self, name: &str, mode: u32) {
        fs::set_permissions(self.path.join(name), fs::Permissions::from_mode(mode)).unwrap();
    }

    pub fn mode(&self, name: &str) -> u32 {
        let found = fs::metadata(self.path.join(name)).unwrap();
        found.permissions().mode() & 0o777
    }

    pub fn write(&self, name: &str, content: impl AsRef<[u8]>) {
        fs::write(self.path.join(name), content).unwrap();
    }

    pub fn make_folder(&self, name: &str) {
        fs::create_dir(self.path.join(name)).unwrap();
    }

    pub fn read(&self, name: &str) -> Vec<u8> {
        fs::read(self.path.join(name)).unwrap()
    }

    /// The names of everything in the folder, in order.
    pub fn names(&self) -> Vec<String> {
        let entries = fs::read_dir(&self.path).unwrap();
        let name = |entry: std::io::Result<fs::DirEntry>| entry.unwrap().file_name();
        let mut names: Vec<String> = entries
            .map(|entry| name(entry).into_string().unwrap())
            .collect();
        names.sort();
        names
    }

    /// The program with these arguments, in the folder.
    pub fn command(&self, arguments: &[&str]) -> Command {
        let mut command = Command::new(env!("CARGO_BIN_EXE_record"));
        command.args(arguments).current_dir(&self.path);
        command
    }

    /// What the program does where a shell closes standard output before it starts.
    pub fn run_with_output_closed(&self, arguments: &[&str]) -> Outcome {
        let output = Command::new("sh")
            .args(["-c", "exec \"$0\" \"$@\" >&-"])
            .arg(env!("CARGO_BIN_EXE_record"))
            .args(arguments)
            .current_dir(&self.path)
            .output()
            .unwrap();
        Outcome::of(output)
    }

    /// What the program does where nobody reads what it writes. It waits for its input, which comes
    /// when the reader is gone.
    pub fn run_with_output_unread(&self, arguments: &[&str], input: &[u8]) -> Outcome {
        let mut child = self.spawn(arguments);
        drop(child.stdout.take());
        Outcome::of_child(child, input)
    }

    pub fn run(&self, arguments: &[&str]) -> Outcome {
        self.run_with_input(arguments, &[])
    }

    pub fn run_with_input(&self, arguments: &[&str], input: &[u8]) -> Outcome {
        Outcome::of_child(self.spawn(arguments), input)
    }

    fn spawn(&self, arguments: &[&str]) -> Child {
        self.command(arguments)
            .stdin(Stdio::piped())
            .stdout(Stdio::piped())
            .stderr(Stdio::piped())
            .spawn()
            .unwrap()
    }
}

/// A matrix record with these real parts on its diagonal, `corner` as element (0, 7) and 0 elsewhere.
pub fn matrix_record(diagonal: i16, corner: (i16, i16)) -> Vec<u8> {
    let mut record = uniform_record((0, 0));
    for k in 0..8 {
        set_element(&mut record, (k, k), (diagonal, 0));
    }
    set_element(&mut record, (0, 7), corner);
    record
}

/// A matrix record with this element in all places.
pub fn uniform_record(element: (i16, i16)) -> Vec<u8> {
    let mut record = vec![KIND_MATRIX; MATRIX_RECORD_BYTES];
    for place in 0..64 {
        set_element(&mut record, (place / 8, place % 8), element);
    }
    record
}

/// Puts an element, its real and its imaginary part, into a row and column of a matrix record.
pub fn set_element(record: &mut [u8], (i, j): (usize, usize), (real, imaginary): (i16, i16)) {
    let bytes = &mut record[1 + 4 * (8 * i + j)..][..4];
    bytes[..2].copy_from_slice(&real.to_be_bytes());
    bytes[2..].copy_from_slice(&imaginary.to_be_bytes());
}

/// The result record that the engine makes of a matrix record.
pub fn worked(matrix: &[u8]) -> Vec<u8> {
    let mut result = vec![0; RESULT_RECORD_BYTES];
    hubqr::whole(matrix, &mut [0; AREA_WORDS], &mut result).unwrap();
    result
}

/// A result record of two diagonal matrices, one with `r` and one with `q` on its diagonal.
pub fn diagonal_result(r: i32, q: i32) -> Vec<u8> {
    let mut record = vec![hubqr::KIND_RESULT];
    for diagonal in [r, q] {
        for place in 0..256 {
            let word = if place % 17 == 0 { diagonal } else { 0 };
            record.extend(word.to_be_bytes());
        }
    }
    record
}

/// Adds to a word of a result record: the words of R row by row, then those of Q transposed.
pub fn add_to_word(record: &mut [u8], place: usize, summand: i32) {
    let bytes = &mut record[1 + 4 * place..][..4];
    let word = i32::from_be_bytes(bytes.try_into().unwrap());
    bytes.copy_from_slice(&(word + summand).to_be_bytes());
}
