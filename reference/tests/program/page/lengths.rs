//! Inputs of every length, and longer ones than the program reads.

use reference::page::PAGE_READ_LIMIT;
use reference::records::{RESULT_KIND, RESULT_RECORD};

use super::compared::Compared;
use super::inputs::long_input;
use crate::run::PAGE;

const LONGEST: usize = 2_100;

/// First bytes of no result record: those of the other records, and others.
const OTHER_KINDS: [u8; 8] = [0, 1, 3, 4, 6, 0x20, 0x82, 0xFF];

/// Lengths around that of the record and what the program reads, and far beyond.
const LONG: [usize; 11] = [
    2_050, 2_051, 2_052, 2_306, 4_096, 4_098, 4_099, 4_100, 65_536, 65_537, 100_000,
];

#[test]
fn an_empty_input() {
    let mut compared = Compared::default();
    assert_eq!(compared.compare(&[]).number(), 1);
    assert_eq!(PAGE.output_at_once(&[]), b"           1\n");
}

#[test]
fn results_of_every_length() {
    let mut compared = Compared::default();
    let input = long_input(RESULT_KIND, LONGEST);
    for length in 0..=LONGEST {
        let number = match length {
            0 => 1,
            RESULT_RECORD => 0,
            _ => 2,
        };
        let says = compared.compare(&input[..length]);
        assert_eq!(says.number(), number, "{length} bytes");
    }
    compared.print("Results of every length");
}

/// Every kind of every length is worked by the reference. The program is started with one of them
/// for each length, and with all of them around the length of a result record.
#[test]
fn other_kinds_of_every_length() {
    let mut compared = Compared::default();
    for (number, kind) in OTHER_KINDS.into_iter().enumerate() {
        let input = long_input(kind, LONGEST);
        for length in 1..=LONGEST {
            let near = length.abs_diff(RESULT_RECORD) <= 2;
            let says = if near || length % OTHER_KINDS.len() == number {
                compared.compare(&input[..length])
            } else {
                compared.examine(&input[..length])
            };
            assert_eq!(says.number(), 1, "{length} bytes, kind {kind}");
        }
    }
    compared.print("Other kinds of every length");
}

#[test]
fn every_other_kind_of_a_record() {
    let mut compared = Compared::default();
    for kind in (0..=u8::MAX).filter(|&kind| kind != RESULT_KIND) {
        let says = compared.compare(&long_input(kind, RESULT_RECORD));
        assert_eq!(says.number(), 1, "kind {kind}");
    }
    compared.print("Every other kind of a record");
}

#[test]
fn long_inputs() {
    let mut compared = Compared::default();
    for length in LONG {
        let says = compared.compare(&long_input(RESULT_KIND, length));
        assert_eq!(says.number(), 2, "{length} bytes");
        for kind in OTHER_KINDS {
            let says = compared.compare(&long_input(kind, length));
            assert_eq!(says.number(), 1, "{length} bytes, kind {kind}");
        }
    }
    compared.print("Long inputs");
}

#[test]
fn no_more_than_2050_bytes_are_read() {
    for length in [2_049, 2_050, 2_051, 3_000, 4_100] {
        for kind in [RESULT_KIND, 1] {
            let input = long_input(kind, length);
            let (written, rest) = PAGE.output_and_rest(&input);
            assert!(written == reference::page::page(&input), "{length} bytes");
            let read = length - rest;
            assert!(read <= PAGE_READ_LIMIT, "{read} of {length} bytes are read");
        }
    }
}
