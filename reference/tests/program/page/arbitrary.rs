//! Records of words that no worked matrix gave, and some that are damaged.

use reference::matrix::REAL_SIZE;
use reference::random::Random;
use reference::records::write_result;

use super::compared::Compared;
use super::inputs::{any_finished, finished};
use super::rules::OtherPages;
use crate::words::Words;

/// Records of each way to draw R and Q.
const RECORDS: u64 = 50;

/// A finished record of words drawn in two ways, one for R and one for Q.
fn drawn([r, q]: [Words; 2], random: &mut Random) -> Vec<u8> {
    let ways = [r, q].into_iter().cycle();
    let mut ways = ways.flat_map(|way| [way; REAL_SIZE]);
    let area = finished(|| ways.next().expect("they never end").draw(random));
    write_result(&area).to_vec()
}

/// A flipped bit anywhere or another kind byte, and bytes too few or one too many, or not all of
/// this.
fn damage(record: &mut Vec<u8>, random: &mut Random) {
    let at = random.below(record.len());
    match random.below(3) {
        0 => record[at] ^= 1 << random.below(8),
        1 => record[0] = random.byte(),
        _ => (),
    }
    match random.below(3) {
        0 => record.truncate(at),
        1 => record.push(random.byte()),
        _ => (),
    }
}

#[test]
fn arbitrary_words() {
    let mut compared = Compared::default();
    let mut noticed = OtherPages::NONE;
    let ways = Words::ALL.into_iter();
    for (way, ways) in ways.flat_map(|r| Words::ALL.map(|q| [r, q])).enumerate() {
        for case in 0..RECORDS {
            let mut random = Random::for_case(731 + way as u64, case);
            let mut record = drawn(ways, &mut random);
            let damaged = random.one_in(4);
            if damaged {
                damage(&mut record, &mut random);
            }
            let says = compared.compare(&record);
            assert!(damaged || says.number() == 0, "{ways:?}, case {case}");
            noticed.look(&record);
        }
    }
    compared.print("Arbitrary words");
    noticed.print_and_require_all_rules("Arbitrary words");
}

#[test]
fn other_words_of_q_give_the_same_page() {
    let mut compared = Compared::default();
    for case in 0..30 {
        let mut random = Random::for_case(751, case);
        let area = any_finished(&mut random);
        let page = compared.compare(&write_result(&area));
        for words in Words::ALL {
            let mut other = area.clone();
            for k in 0..REAL_SIZE * REAL_SIZE {
                let (row, column) = (k / REAL_SIZE, REAL_SIZE + k % REAL_SIZE);
                other.set_word(row, column, words.draw(&mut random));
            }
            assert_eq!(compared.compare(&write_result(&other)), page);
        }
    }
    compared.print("Other words of Q");
}
