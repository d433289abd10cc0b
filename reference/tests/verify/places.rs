//! Each word of R by itself, at every place where it is tested, beside matrices that are accepted and
//! matrices that are not.

use reference::cases::{unheard_edges, Kind};
use reference::matrix::REAL_SIZE;
use reference::random::Random;
use reference::records::write_matrix;

use crate::common::verify::Seen;
use crate::common::Case;
use crate::pair::{places, Pair};

/// Words other than 0, of either sign.
const WORDS: [i32; 6] = [1, -1, 256, -(1 << 24), i32::MIN, i32::MAX];

/// A matrix record for each number that it is refused with, and for 0 the one that is handed over.
fn matrices(matrix: &[u8], random: &mut Random) -> [(u8, Vec<u8>); 4] {
    let edges = unheard_edges();
    let unheard = write_matrix(&edges[random.below(edges.len())]);
    let mut other_kind = matrix.to_vec();
    other_kind[0] = random.choose(&[0, 2, 3, 255]);
    let shorter = matrix[..matrix.len() - 1].to_vec();
    [
        (1, other_kind),
        (2, shorter),
        (4, unheard.to_vec()),
        (0, matrix.to_vec()),
    ]
}

/// 8 is for a word under the diagonal other than 0, and for a negative one of the first fifteen on it.
/// It comes after all tests of the matrix.
#[test]
fn each_word_of_r_at_its_place() {
    let (mut seen, mut number) = (Seen::default(), 0);
    for (i, j) in places() {
        for word in WORDS {
            let mut random = Random::for_case(1441, number);
            let matrix = Kind::FullRange.matrix(&mut random);
            let mut pair = Pair::of_board(matrix);
            pair.set_r(i, j, word);
            let (matrix, result) = pair.records();
            let refused = i > j || i == j && word < 0 && i < REAL_SIZE - 1;
            for (first, matrix) in matrices(&matrix, &mut random) {
                let case = Case::new("places", 1441, number, &matrix);
                let reply = seen.verify(&case, &matrix, &result);
                let due = match first {
                    0 if refused => 8,
                    first => first,
                };
                assert_eq!(reply.number, due, "{word} at ({i}, {j})\n{case}");
            }
            number += 1;
        }
    }
    seen.print("A word of R at every place");
    let tested = places().count() as u64 * WORDS.len() as u64;
    let refused = 120 * WORDS.len() as u64 + 15 * 3;
    let refusals = [1, 2, 4, 8].map(|number| seen.refusals[&number]);
    assert_eq!(refusals, [tested, tested, tested, refused]);
    assert_eq!(seen.yes + seen.no, tested - refused);
}
