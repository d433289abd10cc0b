//! Records of words that no worked matrix gave, with a triangle that is accepted or nearly so.

use reference::area::WorkArea;
use reference::matrix::REAL_SIZE;
use reference::random::Random;
use reference::records::write_result;

use crate::common::triangle::{by_halves, triangle};
use crate::common::weights::any_targets;
use crate::common::words::Words;
use crate::common::Case;
use crate::rules::Compared;

/// Records of each way to draw R, its diagonal and Q.
const RECORDS: u64 = 200;

/// R and Q, each of words drawn in one way, and R's diagonal in another. In one of twenty areas a
/// diagonal word is 0.
fn drawn([r, diagonal, q]: [Words; 3], random: &mut Random) -> WorkArea {
    let mut diagonals: [i32; REAL_SIZE] =
        std::array::from_fn(|_| diagonal.draw(random).saturating_abs().max(1));
    if random.one_in(2) {
        diagonals[REAL_SIZE - 1] *= -1;
    }
    if random.one_in(20) {
        diagonals[random.below(REAL_SIZE)] = 0;
    }
    let mut ways = by_halves(r, q);
    let mut word = || ways.next().expect("they never end").draw(random);
    triangle(&mut word, |i| diagonals[i])
}

#[test]
fn arbitrary_words_agree() {
    let mut number = 0;
    for (r, seed) in Words::ALL.into_iter().zip(921..) {
        let mut compared = Compared::NONE;
        for diagonal in Words::ALL {
            for q in Words::ALL {
                for _ in 0..RECORDS {
                    let mut random = Random::for_case(seed, number);
                    let record = write_result(&drawn([r, diagonal, q], &mut random));
                    let case = Case::new("arbitrary words", seed, number, &record);
                    let reply = compared.weights(&case, &record, &any_targets(&mut random));
                    assert!([0, 11].contains(&reply.number), "{case}");
                    number += 1;
                }
            }
        }
        compared.print_and_require_all_rules(&format!("Words of R: {r:?}"));
    }
    assert_eq!(number, 12_800);
}
