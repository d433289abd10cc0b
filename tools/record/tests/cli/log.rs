//! The entries of a log, one a line, and what is said of a file that is none.
use hubqr::{Body, Journal, Refusal, RESULT_RECORD_BYTES};

use crate::tool::{add_to_word, diagonal_result, matrix_record, worked, Folder, Outcome, WIDEST};

const HEADING: &str = "   place  day         swept from  entry\n";

const BROKEN: &str = "the engine refuses it with number 16: \
                      the used bytes of the log pass the buffer or are no whole run of entries";

fn list(folder: &Folder, log: &[u8]) -> Outcome {
    folder.write("l.bin", log);
    folder.run(&["log", "l.bin"])
}

/// The used bytes of a log to which these were added.
fn log_of(entries: &[(u32, Body)]) -> Vec<u8> {
    let mut buffer = vec![0; entries.len() * hubqr::LOG_RESULT_BYTES];
    let mut journal = Journal::new(&mut buffer);
    for &(day, body) in entries {
        journal.add(day, body).unwrap();
    }
    journal.bytes().to_vec()
}

/// The lines between the heading and the last one, of a log that is in order.
fn lines(outcome: &Outcome) -> Vec<&str> {
    assert_eq!((outcome.status, outcome.stderr.as_str()), (0, ""));
    let lines = outcome.text().strip_prefix(HEADING).unwrap();
    let mut lines: Vec<&str> = lines.lines().collect();
    assert!(lines.pop().unwrap().ends_with(" bytes"));
    lines
}

/// What is said of an entry behind its place and its dates.
fn said(folder: &Folder, body: Body) -> String {
    let outcome = list(folder, &log_of(&[(20_000, body)]));
    let lines = lines(&outcome);
    assert_eq!(lines.len(), 1);
    let (front, said) = lines[0].split_at(34);
    assert!(front.starts_with("       0  2024-10-04  202"), "{front}");
    said.to_string()
}

#[test]
fn each_entry_is_a_line() {
    let folder = Folder::new("log-lines");
    let result = worked(&matrix_record(20, (2, 3))).try_into().unwrap();
    let log = log_of(&[
        (20_000, Body::Heard(0xdf)),
        (20_000, Body::Result(&result)),
        (20_001, Body::Refusal(4)),
        (0, Body::Heard(0)),
    ]);
    let outcome = list(&folder, &log);
    let expected = "   place  day         swept from  entry
       0  2024-10-04  2025-01-02  heard antennas: 0 1 2 3 4 6 7 (heard byte DF), not heard: 5
       6  2024-10-04  2024-10-11  result, which the engine reads
    2060  2024-10-05  2024-11-04  refusal 4: no antenna was heard: the real part of every diagonal element is 16 or less
    2066  1970-01-01  1970-04-01  heard antennas: none (heard byte 00), not heard: 0 1 2 3 4 5 6 7
4 entries, 2072 bytes
";
    assert_eq!(outcome.text(), expected);
    assert_eq!((outcome.status, outcome.stderr.as_str()), (0, ""));
}

#[test]
fn a_log_may_have_no_entry_or_one() {
    let folder = Folder::new("log-few");
    let none = list(&folder, &[]);
    assert_eq!(none.text(), format!("{HEADING}0 entries, 0 bytes\n"));
    assert_eq!((none.status, none.stderr.as_str()), (0, ""));
    let one = list(&folder, &log_of(&[(1, Body::Heard(1))]));
    assert!(one.text().ends_with("\n1 entry, 6 bytes\n"));
}

#[test]
fn a_log_may_come_from_standard_input() {
    let folder = Folder::new("log-standard");
    let log = log_of(&[(100, Body::Refusal(12)), (101, Body::Heard(3))]);
    let outcome = folder.run_with_input(&["log", "-"], &log);
    assert_eq!(outcome.text(), list(&folder, &log).text());
    let outcome = folder.run_with_input(&["log", "-"], &log[..7]);
    let message =
        format!("no entry at place 6: an entry of kind 07 has 6 bytes, this one 1: {BROKEN}");
    assert_eq!(
        outcome.stderr,
        format!("record: standard input: {message}\n")
    );
    assert_eq!(outcome.status, 1);
}

/// Of each kind, at the ends of the range and where years get longer.
#[test]
fn days_are_dates() {
    let folder = Folder::new("log-dates");
    let record = [0; RESULT_RECORD_BYTES];
    for (day, body, dates) in [
        (0, Body::Result(&record), "1970-01-01  1970-01-08  "),
        (100, Body::Result(&record), "1970-04-11  1970-04-18  "),
        (11_016, Body::Refusal(1), "2000-02-29  2000-03-30  "),
        (2_932_896, Body::Heard(1), "9999-12-31  10000-03-30  "),
        (
            u32::MAX - 90,
            Body::Heard(1),
            "11761190-10-22  11761191-01-20  ",
        ),
        (
            u32::MAX - 89,
            Body::Heard(1),
            "11761190-10-23  never       ",
        ),
        (
            u32::MAX - 29,
            Body::Refusal(1),
            "11761190-12-22  never       ",
        ),
        (
            u32::MAX,
            Body::Result(&record),
            "11761191-01-20  never       ",
        ),
    ] {
        let outcome = list(&folder, &log_of(&[(day, body)]));
        let line = lines(&outcome)[0];
        assert!(line[10..].starts_with(dates), "{line}");
    }
}

#[test]
fn heard_bytes_name_antennas() {
    let folder = Folder::new("log-heard");
    let entries: Vec<(u32, Body)> = (0..=255)
        .map(|byte| (2_932_000, Body::Heard(byte)))
        .collect();
    let outcome = list(&folder, &log_of(&entries));
    for (byte, line) in (0_u8..=255).zip(lines(&outcome)) {
        assert!(line.len() <= WIDEST, "{line}");
        assert!(line.contains(&format!("(heard byte {byte:02X})")));
        let (heard, not) = line[34..].split_once(", not heard: ").unwrap();
        let heard = heard.strip_prefix("heard antennas: ").unwrap();
        for k in 0..8 {
            let named = if byte >> k & 1 == 1 { heard } else { not };
            let names = named.split(" (").next().unwrap();
            assert!(names.contains(&k.to_string()), "{line}");
        }
    }
}

#[test]
fn refusals_are_said_in_the_words_of_the_host_crate() {
    let folder = Folder::new("log-refusals");
    for &refusal in Refusal::ALL {
        let number = refusal.number();
        let expected = format!("refusal {number}: {refusal}");
        assert_eq!(said(&folder, Body::Refusal(number)), expected);
    }
    for number in [0, Refusal::ALL.len() as u8 + 1, 255] {
        let expected = format!("refusal {number}: {number} is no refusal number");
        assert_eq!(said(&folder, Body::Refusal(number)), expected);
    }
}

/// They were stored untested, so that nothing is wrong with the log.
#[test]
fn results_that_the_engine_refuses_are_listed_with_the_reason() {
    let folder = Folder::new("log-results");
    let broken = |place: usize, summand: i32| {
        let mut record = diagonal_result(8, 1 << 30);
        add_to_word(&mut record, place, summand);
        record
    };
    let kind = "the kind byte is 00, a result record begins with 02: ";
    for (record, number, what) in [
        (vec![0; RESULT_RECORD_BYTES], 1, kind),
        (broken(16, 5), 8, "word (1, 0) of R is 5: "),
        (broken(0, -9), 8, "word (0, 0) of R is -1: "),
    ] {
        let refusal = Refusal::try_from(number).unwrap();
        let why = format!("the engine refuses it with number {number}: {refusal}");
        let said = said(&folder, Body::Result(&record.try_into().unwrap()));
        assert_eq!(said, format!("result: {what}{why}"));
    }
    for record in [broken(255, -9), diagonal_result(0, 0)] {
        let said = said(&folder, Body::Result(&record.try_into().unwrap()));
        assert_eq!(said, "result, which the engine reads");
    }
}

/// Files that are no log: how many entries stand before the first place at which none does, that place,
/// and what is said of it.
fn no_logs() -> Vec<(Vec<u8>, usize, usize, String)> {
    let record = [0; RESULT_RECORD_BYTES];
    let log = log_of(&[(100, Body::Result(&record)), (100, Body::Heard(7))]);
    let behind = |bytes: &[u8]| [&log[..], bytes].concat();
    let no_kind = |byte: u8| {
        let kinds = "entries begin with 05 (result), 06 (refusal) or 07 (heard byte)";
        format!("the kind byte is {byte:02X}; {kinds}")
    };
    let cut = |kind: u8, whole: usize, left: usize| {
        format!("an entry of kind {kind:02X} has {whole} bytes, this one {left}")
    };
    vec![
        (vec![0], 0, 0, no_kind(0)),
        (vec![4; 3000], 0, 0, no_kind(4)),
        (vec![8; 5], 0, 0, no_kind(8)),
        (log[1..].to_vec(), 0, 0, no_kind(0)),
        (behind(&[0xff]), 2, 2060, no_kind(0xff)),
        (log[..2053].to_vec(), 0, 0, cut(5, 2054, 2053)),
        (log[..2059].to_vec(), 1, 2054, cut(7, 6, 5)),
        (behind(&[6]), 2, 2060, cut(6, 6, 1)),
        (behind(&[5; 9]), 2, 2060, cut(5, 2054, 9)),
    ]
}

#[test]
fn what_is_no_log_is_listed_as_far_as_it_is_one() {
    let folder = Folder::new("log-broken");
    for (bytes, entries, place, what) in no_logs() {
        let whole = list(&folder, &bytes[..place]);
        assert_eq!(lines(&whole).len(), entries);
        let outcome = list(&folder, &bytes);
        let before = format!("{place} bytes\n");
        let listed = whole.text().strip_suffix(&before).unwrap();
        let expected = format!("{listed}{place} of {} bytes\n", bytes.len());
        assert_eq!(outcome.text(), expected);
        let message = format!("record: l.bin: no entry at place {place}: {what}: {BROKEN}\n");
        assert_eq!((outcome.status, outcome.stderr), (1, message));
    }
}

/// The day that is printed is the first on which the engine sweeps the entry.
#[test]
fn entries_are_swept_from_the_day_that_is_printed() {
    let folder = Folder::new("log-swept");
    let record = [0; RESULT_RECORD_BYTES];
    let swept = |day: u32, body: Body, on: u32| {
        let mut log = log_of(&[(day, body)]);
        let used = log.len();
        let mut journal = Journal::open(&mut log, used).unwrap();
        journal.sweep(on);
        journal.used() == 0
    };
    for (body, date, on) in [
        (Body::Result(&record), "2024-10-11", 20_007),
        (Body::Refusal(4), "2024-11-03", 20_030),
        (Body::Heard(4), "2025-01-02", 20_090),
    ] {
        let outcome = list(&folder, &log_of(&[(20_000, body)]));
        assert_eq!(&lines(&outcome)[0][22..32], date);
        assert!(swept(20_000, body, on) && !swept(20_000, body, on - 1));
    }
}

/// 16 MiB are 8,168 results and 24 heard bytes.
#[test]
fn a_file_is_listed_up_to_16_mib() {
    let folder = Folder::new("log-long");
    let record = [0; RESULT_RECORD_BYTES];
    let result = log_of(&[(100, Body::Result(&record))]);
    let heard = log_of(&[(100, Body::Heard(1))]);
    let mut log = [result.repeat(8168), heard.repeat(24)].concat();
    let outcome = list(&folder, &log);
    assert!(outcome.text().ends_with("\n8192 entries, 16777216 bytes\n"));
    assert_eq!((outcome.status, outcome.stderr.as_str()), (0, ""));
    log.push(7);
    let outcome = list(&folder, &log);
    let message = "record: l.bin: longer than 16 MiB, too long to be listed\n";
    assert_eq!((outcome.status, outcome.stderr.as_str()), (1, message));
    assert_eq!(outcome.text(), "");
}

#[test]
fn a_file_that_cannot_be_read_is_a_failure() {
    let folder = Folder::new("log-unread");
    folder.make_folder("folder");
    for (name, message) in [
        ("absent.bin", "No such file or directory (os error 2)"),
        ("folder", "Is a directory (os error 21)"),
    ] {
        let outcome = folder.run(&["log", name]);
        assert_eq!(outcome.stderr, format!("record: {name}: {message}\n"));
        assert_eq!((outcome.status, outcome.text()), (1, ""));
    }
}
