//! Which antennas count as heard, and what the commands say where none is.
use hubqr::{Refusal, AREA_WORDS, RESULT_RECORD_BYTES};

use crate::tool::{matrix_record, set_element, uniform_record, worked, Folder};

const REFUSED: &str = "the engine refuses it with number 4: \
                       no antenna was heard: the real part of every diagonal element is 16 or less";

/// A matrix record with this element everywhere and these on the diagonal.
fn with_diagonal(elsewhere: (i16, i16), diagonal: [(i16, i16); 8]) -> Vec<u8> {
    let mut record = uniform_record(elsewhere);
    for (k, element) in diagonal.into_iter().enumerate() {
        set_element(&mut record, (k, k), element);
    }
    record
}

/// Matrices in which no antenna is heard, and all but the first of which are not zero.
fn unheard() -> Vec<Vec<u8>> {
    vec![
        uniform_record((0, 0)),
        uniform_record((16, 16)),
        uniform_record((-32768, -32768)),
        matrix_record(-17, (0, 0)),
        with_diagonal((32767, 32767), [(16, 32767); 8]),
        with_diagonal((2, -1), [(2, 0); 8]),
    ]
}

/// Records and their heard bytes: one antenna after the other just loud enough, which the others'
/// imaginary parts, and all elements beside the diagonal, leave as it is.
fn heard() -> Vec<(Vec<u8>, u8)> {
    let mut records = vec![
        (matrix_record(17, (0, 0)), 0xff),
        (uniform_record((32767, -32768)), 0xff),
        (
            with_diagonal(
                (0, 0),
                [17, 16, 0, -1, -17, 32767, -32768, 18].map(|re| (re, 0)),
            ),
            0xa1,
        ),
    ];
    for k in 0..8 {
        for elsewhere in [(0, 0), (32767, 32767), (-32768, -32768)] {
            let mut diagonal = [(16, 32767); 8];
            diagonal[k] = (17, -32768);
            records.push((with_diagonal(elsewhere, diagonal), 1 << k));
        }
    }
    records
}

/// The heard byte that the engine answers, or why it refuses the record.
fn engine(record: &[u8]) -> Result<u8, Refusal> {
    let mut result = [0; RESULT_RECORD_BYTES];
    let factored = hubqr::whole(record, &mut [0; AREA_WORDS], &mut result);
    factored.map(|factored| factored.heard)
}

#[test]
fn heard_antennas_are_those_that_the_engine_names() {
    let folder = Folder::new("heard-some");
    for (record, heard) in heard() {
        assert_eq!(engine(&record), Ok(heard));
        let shown = folder.run_with_input(&["show", "-"], &record);
        assert_eq!((shown.status, shown.stderr.as_str()), (0, ""));
        let byte = format!("(heard byte {heard:02X})");
        assert!(shown.text().contains(&byte), "{byte}: {}", shown.text());
        assert!(!shown.text().contains("refuses"), "{}", shown.text());
    }
}

#[test]
fn antennas_are_named_in_words() {
    let folder = Folder::new("heard-words");
    let diagonal = |heard: u8| std::array::from_fn(|k| (16 + i16::from(heard >> k & 1), 0));
    for (heard, words) in [
        (0xff, "0 1 2 3 4 5 6 7 (heard byte FF), not heard: none"),
        (0x07, "0 1 2 (heard byte 07), not heard: 3 4 5 6 7"),
        (0x80, "7 (heard byte 80), not heard: 0 1 2 3 4 5 6"),
        (0x00, "none (heard byte 00), not heard: 0 1 2 3 4 5 6 7"),
    ] {
        let record = with_diagonal((0, 0), diagonal(heard));
        let shown = folder.run_with_input(&["show", "-"], &record);
        let line = format!("# heard antennas: {words}");
        assert_eq!(shown.text().lines().nth(1), Some(line.as_str()));
        folder.write("in.txt", &shown.stdout);
        let packed = folder.run(&["pack", "in.txt", "out.bin"]);
        let line = format!("out.bin: matrix record, heard antennas: {words}\n");
        assert_eq!(packed.text(), line);
    }
}

#[test]
fn where_none_is_heard_the_record_is_shown_with_the_refusal() {
    let folder = Folder::new("heard-show");
    for record in unheard() {
        assert_eq!(engine(&record), Err(Refusal::NoneHeard));
        let shown = folder.run_with_input(&["show", "-"], &record);
        assert_eq!((shown.status, shown.stderr.as_str()), (1, ""));
        let lines: Vec<&str> = shown.text().lines().skip(1).take(2).collect();
        assert!(lines[0].starts_with("# heard antennas: none (heard byte 00)"));
        assert_eq!(lines[1], format!("# {REFUSED}"));
    }
}

#[test]
fn where_none_is_heard_the_record_is_packed_with_a_remark() {
    let folder = Folder::new("heard-pack");
    for record in unheard() {
        let text = folder.run_with_input(&["show", "-"], &record).stdout;
        folder.write("in.txt", text);
        let outcome = folder.run(&["pack", "in.txt", "out.bin"]);
        assert_eq!(outcome.status, 0);
        assert_eq!(outcome.stderr, format!("record: {REFUSED}\n"));
        assert_eq!(folder.read("out.bin"), record);
    }
}

#[test]
fn where_none_is_heard_there_is_no_result_to_check() {
    let folder = Folder::new("heard-check");
    folder.write("r.bin", worked(&matrix_record(17, (0, 0))));
    for record in unheard() {
        folder.write("m.bin", record);
        let outcome = folder.run(&["check", "m.bin", "r.bin"]);
        assert_eq!(outcome.stderr, format!("record: m.bin: {REFUSED}\n"));
        assert_eq!((outcome.status, outcome.text()), (1, ""));
    }
}
