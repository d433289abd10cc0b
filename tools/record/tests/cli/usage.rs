use crate::tool::{matrix_record, Folder};

#[test]
fn help_is_printed() {
    let folder = Folder::new("usage-help");
    for (arguments, start) in [
        (&["--help"][..], "Makes, shows, checks and verifies"),
        (&["-h"], "Makes, shows, checks and verifies"),
        (&["pack", "--help"], "Usage: record pack IN.txt OUT.bin\n"),
        (&["show", "--help"], "Usage: record show FILE\n"),
        (&["check", "--help"], "Usage: record check MATRIX RESULT\n"),
        (&["verify", "-h"], "Usage: record verify MATRIX RESULT\n"),
        (&["weights", "-h"], "Usage: record weights RESULT TARGETS\n"),
        (&["log", "--help"], "Usage: record log FILE\n"),
    ] {
        let outcome = folder.run(arguments);
        assert_eq!((outcome.status, outcome.stderr.as_str()), (0, ""));
        assert!(outcome.text().starts_with(start), "{}", outcome.text());
        assert!(outcome.text().lines().all(|line| line.len() <= 102));
    }
}

#[test]
fn a_wrong_command_line_is_an_error_of_status_2() {
    let folder = Folder::new("usage-wrong");
    let show = "usage: record show FILE";
    let pack = "usage: record pack IN.txt OUT.bin";
    let check = "usage: record check MATRIX RESULT";
    let verify = "usage: record verify MATRIX RESULT";
    let weights = "usage: record weights RESULT TARGETS";
    let log = "usage: record log FILE";
    for (arguments, message) in [
        (&[][..], "no command given".to_string()),
        (&["list"], "unknown command 'list'".into()),
        (&["--fast"], "unknown command '--fast'".into()),
        (&["show"], format!("1 file name needed, 0 given; {show}")),
        (
            &["show", "a", "b"],
            format!("1 file name needed, 2 given; {show}"),
        ),
        (
            &["show", "--raw", "a"],
            format!("unknown option '--raw'; {show}"),
        ),
        (
            &["pack", "a"],
            format!("2 file names needed, 1 given; {pack}"),
        ),
        (
            &["pack", "a", "b", "-x"],
            format!("unknown option '-x'; {pack}"),
        ),
        (
            &["check", "a"],
            format!("2 file names needed, 1 given; {check}"),
        ),
        (
            &["verify", "a", "b", "c"],
            format!("2 file names needed, 3 given; {verify}"),
        ),
        (
            &["verify", "a", "--quiet", "b"],
            format!("unknown option '--quiet'; {verify}"),
        ),
        (
            &["weights", "a", "b", "c"],
            format!("2 file names needed, 3 given; {weights}"),
        ),
        (&["log"], format!("1 file name needed, 0 given; {log}")),
        (&["log", "-d", "a"], format!("unknown option '-d'; {log}")),
    ] {
        let outcome = folder.run(arguments);
        let expected = format!("record: {message}\nTry 'record --help'.\n");
        assert_eq!(outcome.stderr, expected);
        assert_eq!((outcome.status, outcome.text()), (2, ""));
    }
    assert!(folder.names().is_empty());
}

#[test]
fn the_version_is_printed() {
    let outcome = Folder::new("usage-version").run(&["--version"]);
    let expected = format!("record {}\n", env!("CARGO_PKG_VERSION"));
    assert_eq!((outcome.status, outcome.text()), (0, expected.as_str()));
}

#[test]
fn a_name_that_begins_with_a_dash_stands_behind_two() {
    let folder = Folder::new("usage-dashes");
    folder.write("-m.bin", matrix_record(20, (2, 3)));
    assert_eq!(folder.run(&["show", "-m.bin"]).status, 2);
    assert_eq!(folder.run(&["show", "--", "-m.bin"]).status, 0);
}
