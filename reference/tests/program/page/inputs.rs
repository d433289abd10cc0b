//! Result records for the page, accepted ones among them that no worked matrix gave.

use reference::area::{WorkArea, AREA_WORDS};
use reference::matrix::REAL_SIZE;
use reference::random::Random;
use reference::records::write_result;

/// R and Q of words that are asked for row by row. R is made that of a finished result: 0 under the
/// diagonal, and the first 15 diagonal words without a sign.
pub fn finished(mut word: impl FnMut() -> i32) -> WorkArea {
    let mut area = WorkArea::from_words(&[0; AREA_WORDS].map(|_: i32| word()));
    for i in 0..REAL_SIZE {
        (0..i).for_each(|j| area.set_word(i, j, 0));
        if i < REAL_SIZE - 1 {
            area.set_word(i, i, area.r(i, i).saturating_abs());
        }
    }
    area
}

/// Anything that is accepted.
pub fn any_finished(random: &mut Random) -> WorkArea {
    finished(|| random.word())
}

/// So many bytes that begin with an accepted record, or are the start of one, with any kind byte.
pub fn long_input(kind: u8, length: usize) -> Vec<u8> {
    let mut random = Random::new(701);
    let mut input = write_result(&any_finished(&mut random)).to_vec();
    input.resize_with(length, || random.byte());
    input.iter_mut().take(1).for_each(|first| *first = kind);
    input
}

/// The words of R in a record of any contents, row by row.
pub fn r_words(record: &[u8]) -> Vec<i32> {
    words(&record[1..][..4 * 256])
}

/// The words that follow R in a record: those of Q transposed.
pub fn q_words(record: &[u8]) -> Vec<i32> {
    words(&record[1 + 4 * 256..][..4 * 256])
}

fn words(bytes: &[u8]) -> Vec<i32> {
    let words = bytes.chunks_exact(4).map(|bytes| bytes.try_into());
    words
        .map(|bytes| i32::from_be_bytes(bytes.expect("four bytes")))
        .collect()
}
