//! What cannot be written is noticed: the status is not 0, and a record is not lost without a word.
use crate::tool::{matrix_record, worked, Folder, Outcome};

/// A folder with a text, the matrix record of it, the result of that, targets, and a log.
fn folder(name: &str) -> Folder {
    let folder = Folder::new(name);
    let matrix = matrix_record(20, (2, 3));
    folder.write("r.bin", worked(&matrix));
    folder.write("m.bin", matrix);
    folder.write("m.txt", folder.run(&["show", "m.bin"]).stdout);
    folder.write("t.txt", "1 2 3 4 5 6 7 8i");
    folder.write("l.bin", [7, 0, 0, 0, 100, 0xff]);
    folder
}

/// Commands that are in order, and the status of each where its output cannot be written.
const COMMANDS: [(&[&str], i32); 9] = [
    (&["pack", "m.txt", "-"], 1),
    (&["pack", "m.txt", "new.bin"], 1),
    (&["show", "m.bin"], 1),
    (&["check", "m.bin", "r.bin"], 1),
    (&["verify", "m.bin", "r.bin"], 2),
    (&["weights", "r.bin", "t.txt"], 1),
    (&["log", "l.bin"], 1),
    (&["--help"], 1),
    (&["--version"], 1),
];

fn assert_failed(outcome: &Outcome, status: i32, message: &str) {
    assert_eq!(outcome.stderr, format!("record: {message}\n"));
    assert_eq!(outcome.status, status);
}

#[test]
fn a_closed_output_is_a_failure() {
    let folder = folder("output-closed");
    let message = "standard output is closed, so nothing could be written to it";
    for (arguments, status) in COMMANDS {
        assert_failed(&folder.run_with_output_closed(arguments), status, message);
    }
}

#[test]
fn an_output_that_goes_nowhere_is_none() {
    let folder = folder("output-null");
    for (arguments, _) in COMMANDS {
        let null = std::fs::OpenOptions::new()
            .read(true)
            .write(true)
            .open("/dev/null");
        let status = folder.command(arguments).stdout(null.unwrap()).status();
        assert_eq!(status.unwrap().code(), Some(0), "{arguments:?}");
    }
}

#[test]
fn a_full_device_is_a_failure() {
    let folder = folder("output-full");
    for (arguments, status) in COMMANDS {
        let full = std::fs::OpenOptions::new().write(true).open("/dev/full");
        let output = folder.command(arguments).stdout(full.unwrap()).output();
        let output = output.unwrap();
        let message = String::from_utf8(output.stderr).unwrap();
        assert!(
            message.starts_with("record: standard output: "),
            "{message}"
        );
        assert_eq!(output.status.code(), Some(status), "{arguments:?}");
    }
}

#[test]
fn a_reader_that_stops_early_is_noticed_quietly() {
    let folder = folder("output-unread");
    for (arguments, input, status) in [
        (&["show", "-"][..], "m.bin", 1),
        (&["check", "m.bin", "-"], "r.bin", 1),
        (&["verify", "m.bin", "-"], "r.bin", 2),
        (&["weights", "r.bin", "-"], "t.txt", 1),
        (&["log", "-"], "l.bin", 1),
    ] {
        let outcome = folder.run_with_output_unread(arguments, &folder.read(input));
        assert_eq!((outcome.status, outcome.stderr.as_str()), (status, ""));
    }
}

#[test]
fn a_record_that_nobody_takes_is_a_failure() {
    let folder = folder("output-untaken");
    let outcome = folder.run_with_output_unread(&["pack", "-", "-"], &folder.read("m.txt"));
    assert_failed(&outcome, 1, "standard output: Broken pipe (os error 32)");
}
