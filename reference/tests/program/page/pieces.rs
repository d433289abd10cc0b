//! Inputs that arrive in pieces, which are put together.

use std::time::Duration;

use reference::page::{page, PageSample};
use reference::records::{RESULT_KIND, RESULT_RECORD};

use super::inputs::long_input;
use crate::run::PAGE;

/// Long enough for a program that waits to read what has arrived.
const PAUSE: Duration = Duration::from_micros(200);

fn require<'a>(pieces: impl IntoIterator<Item = &'a [u8]>, pause: Duration, input: &[u8]) {
    let written = PAGE.output(pieces, pause);
    assert!(written == page(input), "input {input:02X?}");
}

fn require_by(sizes: &[usize], input: &[u8]) {
    for &size in sizes {
        for pause in [Duration::ZERO, PAUSE] {
            require(input.chunks(size), pause, input);
        }
    }
}

#[test]
fn a_result_in_pieces() {
    let input = long_input(RESULT_KIND, RESULT_RECORD);
    assert_eq!(page(&input).len(), 3_088);
    let sizes = [
        1, 2, 3, 4, 5, 7, 16, 64, 255, 256, 257, 512, 1_000, 1_024, 1_025, 2_047, 2_048,
    ];
    require_by(&sizes, &input);
}

/// In two pieces, the first of which ends with any byte of the first and the last words, or with
/// R's last.
#[test]
fn a_result_in_two_pieces() {
    let input = long_input(RESULT_KIND, RESULT_RECORD);
    for first in (0..16).chain(1_020..1_030).chain(2_030..=RESULT_RECORD) {
        let (before, behind) = input.split_at(first);
        require([before, behind], PAUSE, &input);
    }
}

#[test]
fn a_long_input_in_pieces() {
    for length in [2_050, 2_051, 4_098, 100_000] {
        for kind in [RESULT_KIND, 1, 3] {
            require_by(&[64, 2_048, 2_049, 2_050], &long_input(kind, length));
        }
    }
    require_by(&[1, 3], &long_input(RESULT_KIND, 2_050));
}

/// The program has to wait for what may follow a whole record.
#[test]
fn a_byte_that_follows_a_result_late() {
    let input = long_input(RESULT_KIND, RESULT_RECORD + 1);
    let (before, behind) = input.split_at(RESULT_RECORD);
    for milliseconds in [0, 1, 20] {
        let pause = Duration::from_millis(milliseconds);
        require([before, behind], pause, &input);
        require([before, &[]], pause, before);
    }
}

#[test]
fn samples_in_pieces() {
    for sample in PageSample::ALL {
        require_by(&[31, 256, 1_025], &sample.bytes());
    }
}
