use std::fs;
use std::os::unix::fs::symlink;

use crate::tool::{matrix_record, Folder};

/// Eight lines with `diagonal` on the diagonal, 0 elsewhere, and `corner` as the last of line 0.
fn text(diagonal: &str, corner: &str) -> String {
    let number = |i, j| match (i, j) {
        (0, 7) => corner,
        (i, j) if i == j => diagonal,
        _ => "0",
    };
    let line = |i| [0, 1, 2, 3, 4, 5, 6, 7].map(|j| number(i, j)).join("  ") + "\n";
    (0..8).map(line).collect()
}

#[test]
fn whole_numbers_and_fractions_become_a_record() {
    let folder = Folder::new("pack-good");
    for (name, content, expected) in [
        (
            "units",
            text("17", "-32768+32767i"),
            matrix_record(17, (-32768, 32767)),
        ),
        (
            "parts",
            text("0.5", "-1.0-0.25i"),
            matrix_record(16384, (-32768, -8192)),
        ),
        (
            "remarks",
            format!("# one\n\n{}# end", text("20", "2j")),
            matrix_record(20, (0, 2)),
        ),
        (
            "carriage",
            text("20", "2j").replace('\n', "\r\n"),
            matrix_record(20, (0, 2)),
        ),
    ] {
        folder.write("in.txt", content);
        let outcome = folder.run(&["pack", "in.txt", name]);
        assert_eq!((outcome.status, outcome.stderr.as_str()), (0, ""));
        assert_eq!(folder.read(name), expected, "{name}");
    }
}

#[test]
fn what_numpy_matlab_and_editors_write_is_read() {
    let folder = Folder::new("pack-others");
    for (name, content, expected) in [
        (
            "commas",
            text("20", "(0 + 2i)").replace("  ", ","),
            matrix_record(20, (0, 2)),
        ),
        (
            "mark",
            format!("\u{feff}{}", text("20", "-3")),
            matrix_record(20, (-3, 0)),
        ),
        (
            "numpy",
            text(
                " (5.000000000000000000e-01+0.000000000000000000e+00j)",
                " (-2.500000000000000000e-01-1.000000000000000000e+00j)",
            ),
            matrix_record(16384, (-8192, -32768)),
        ),
        (
            "exponents",
            text("1.0e-03", "1e-5-0j"),
            matrix_record(33, (0, 0)),
        ),
    ] {
        folder.write("in.txt", content);
        let outcome = folder.run(&["pack", "in.txt", name]);
        assert_eq!((outcome.status, outcome.stderr.as_str()), (0, ""));
        assert_eq!(folder.read(name), expected, "{name}");
    }
}

#[test]
fn standard_input_and_output_will_do() {
    let folder = Folder::new("pack-standard");
    let outcome = folder.run_with_input(&["pack", "-", "-"], text("20", "4i").as_bytes());
    assert_eq!((outcome.status, outcome.stderr.as_str()), (0, ""));
    assert_eq!(outcome.stdout, matrix_record(20, (0, 4)));
    assert!(folder.names().is_empty());
}

#[test]
fn bad_text_is_pointed_at_and_nothing_is_written() {
    let folder = Folder::new("pack-bad");
    folder.write("old.bin", "as it was");
    for (content, message) in [
        (text("1", "32768"), "line 1, column 22: 32768 is out of range: whole numbers are units of 1/32768 and go from -32768 to 32767"),
        (text("0.5", "1.0"), "line 1, column 24: 1.0 is out of range: numbers with a point or an exponent are parts of one and go from -1 to 32767/32768, about 0.99997; divide all numbers of the file by one that brings them into this range"),
        (text("1", "1+2k"), "line 1, column 25: 'i' behind the imaginary part expected, found 'k'"),
        (text("1", "2 3"), "line 1, column 24: a ninth number in row 0, a row has 8"),
        (text("1", ""), "line 1, column 20: row 0 ends after 7 numbers, 8 are needed"),
        (text("1", "2") + "3", "line 9, column 1: a ninth row of numbers, a matrix has 8"),
        ("\n".into(), "line 1, column 1: the text ends after 0 rows of numbers, 8 are needed"),
    ] {
        folder.write("in.txt", content);
        for target in ["old.bin", "new.bin", "-"] {
            let outcome = folder.run(&["pack", "in.txt", target]);
            assert_eq!(outcome.stderr, format!("record: in.txt: {message}\n"));
            assert_eq!((outcome.status, outcome.text()), (1, ""));
        }
    }
    assert_eq!(folder.names(), ["in.txt", "old.bin"]);
    assert_eq!(folder.read("old.bin"), b"as it was");
}

#[test]
fn what_is_no_text_is_refused() {
    let folder = Folder::new("pack-no-text");
    folder.write("latin.txt", [b"1 1 1 \xb5".as_slice(), &[b' '; 9]].concat());
    folder.write("long.txt", vec![b'\n'; (1 << 20) + 1]);
    for (name, message) in [
        ("latin.txt", "latin.txt: no text: byte 6 is not UTF-8"),
        (
            "long.txt",
            "long.txt: longer than 1 MiB, which is no 8 by 8 matrix",
        ),
        (
            "absent.txt",
            "absent.txt: No such file or directory (os error 2)",
        ),
    ] {
        let outcome = folder.run(&["pack", name, "out.bin"]);
        assert_eq!(outcome.stderr, format!("record: {message}\n"));
        assert_eq!(outcome.status, 1);
    }
    assert_eq!(folder.names(), ["latin.txt", "long.txt"]);
}

#[test]
fn a_place_that_takes_no_file_is_left_alone() {
    let folder = Folder::new("pack-no-place");
    folder.write("in.txt", text("20", "2"));
    folder.make_folder("folder");
    for (target, message) in [
        (
            "folder",
            "folder: not a regular file; '-' stands for standard output",
        ),
        (
            "absent/out.bin",
            "absent/out.bin: No such file or directory (os error 2)",
        ),
    ] {
        let outcome = folder.run(&["pack", "in.txt", target]);
        assert_eq!(outcome.stderr, format!("record: {message}\n"));
        assert_eq!(outcome.status, 1);
    }
    assert_eq!(folder.names(), ["folder", "in.txt"]);
}

#[test]
fn an_existing_file_is_replaced_and_no_litter_stays() {
    let folder = Folder::new("pack-replace");
    folder.write("in.txt", text("20", "2"));
    folder.write("out.bin", "as it was");
    assert_eq!(folder.run(&["pack", "in.txt", "out.bin"]).status, 0);
    assert_eq!(folder.read("out.bin"), matrix_record(20, (2, 0)));
    assert_eq!(folder.names(), ["in.txt", "out.bin"]);
}

#[test]
fn links_and_devices_are_refused_and_stay() {
    let folder = Folder::new("pack-links");
    folder.write("in.txt", text("20", "2"));
    folder.write("old.bin", "as it was");
    symlink("old.bin", folder.path("link")).unwrap();
    symlink("absent.bin", folder.path("dangling")).unwrap();
    for target in ["link", "dangling", "/dev/stdout", "/dev/null"] {
        let outcome = folder.run(&["pack", "in.txt", target]);
        let message = "not a regular file; '-' stands for standard output";
        assert_eq!(outcome.stderr, format!("record: {target}: {message}\n"));
        assert_eq!((outcome.status, outcome.text()), (1, ""));
    }
    assert_eq!(folder.names(), ["dangling", "in.txt", "link", "old.bin"]);
    assert_eq!(folder.read("old.bin"), b"as it was");
    for link in ["link", "dangling"] {
        assert!(fs::symlink_metadata(folder.path(link))
            .unwrap()
            .is_symlink());
    }
}

#[test]
fn a_log_behind_dev_stdout_stays() {
    let folder = Folder::new("pack-log");
    folder.write("in.txt", text("20", "2"));
    folder.write("log.txt", "a line\n");
    let log = fs::OpenOptions::new()
        .append(true)
        .open(folder.path("log.txt"))
        .unwrap();
    let status = folder
        .command(&["pack", "in.txt", "/dev/stdout"])
        .stdout(log)
        .status();
    assert_eq!(status.unwrap().code(), Some(1));
    assert_eq!(folder.read("log.txt"), b"a line\n");
}

#[test]
fn the_input_is_not_overwritten() {
    let folder = Folder::new("pack-itself");
    let content = text("20", "2");
    folder.write("in.txt", &content);
    symlink("in.txt", folder.path("link")).unwrap();
    for (input, output) in [
        ("in.txt", "in.txt"),
        ("in.txt", "./in.txt"),
        ("link", "in.txt"),
    ] {
        let outcome = folder.run(&["pack", input, output]);
        let message = format!("{output}: the input and the output are the same file");
        assert_eq!(outcome.stderr, format!("record: {message}\n"));
        assert_eq!(outcome.status, 1);
        assert_eq!(folder.read("in.txt"), content.as_bytes());
    }
}

#[test]
fn a_read_only_file_is_refused_and_stays() {
    let folder = Folder::new("pack-read-only");
    folder.write("in.txt", text("20", "2"));
    folder.write("old.bin", "as it was");
    folder.set_mode("old.bin", 0o444);
    let outcome = folder.run(&["pack", "in.txt", "old.bin"]);
    assert_eq!(outcome.stderr, "record: old.bin: read-only\n");
    assert_eq!(outcome.status, 1);
    assert_eq!(folder.read("old.bin"), b"as it was");
    assert_eq!(folder.names(), ["in.txt", "old.bin"]);
}

#[test]
fn a_replaced_file_keeps_its_permissions() {
    let folder = Folder::new("pack-permissions");
    folder.write("in.txt", text("20", "2"));
    for mode in [0o600, 0o666, 0o640] {
        folder.write("out.bin", "as it was");
        folder.set_mode("out.bin", mode);
        assert_eq!(folder.run(&["pack", "in.txt", "out.bin"]).status, 0);
        assert_eq!(folder.read("out.bin"), matrix_record(20, (2, 0)));
        assert_eq!(folder.mode("out.bin"), mode);
    }
}
