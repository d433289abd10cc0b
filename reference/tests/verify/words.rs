//! R and Q of words that no board would write, up to those whose sums pass 64 bits.

use reference::area::WorkArea;
use reference::cases::Kind;
use reference::matrix::{Matrix, REAL_SIZE};
use reference::random::Random;

use crate::common::triangle::{by_halves, triangle};
use crate::common::words::Words;
use crate::pair::{places, Family, Pair};
use crate::rules::{Compared, Rule};

const LOWEST: i32 = i32::MIN;
const HIGHEST: i32 = i32::MAX;

const EXTREMES: [i32; 11] = [
    LOWEST,
    LOWEST + 1,
    -(1 << 30) - 1,
    -(1 << 30),
    -1,
    0,
    1,
    1 << 30,
    (1 << 30) + 1,
    HIGHEST - 1,
    HIGHEST,
];

/// Records of each way to draw R and Q.
const RECORDS: u64 = 300;

/// The records of a test, and how large their sums are.
struct Large {
    compared: Compared<1>,
    /// The records with a sum beyond 2^63 and beyond 2^64, and the largest sum.
    beyond: [u64; 2],
    largest: i128,
}

impl Large {
    /// Such records tell no other rule apart than the crudest.
    fn new() -> Self {
        Large {
            compared: Compared::new([Rule::Modulo(32)]),
            beyond: [0; 2],
            largest: 0,
        }
    }

    fn verify(&mut self, test: &'static str, seed: u64, number: u64, pair: &Pair) {
        let reply = self.compared.verify(test, seed, number, pair);
        if reply.number != 0 {
            return;
        }
        let [product, rows] = Family::BOTH.map(|family| pair.largest(family));
        let largest = product.max(rows);
        for (count, power) in self.beyond.iter_mut().zip([63, 64]) {
            *count += u64::from(largest > 1 << power);
        }
        self.largest = self.largest.max(largest);
    }

    fn print_and_require_large(&self, test: &str) {
        self.compared.print_and_require_all_rules(test);
        let [beyond_63, beyond_64] = self.beyond;
        let largest = (self.largest as f64).log2();
        println!(
            "{beyond_63} with a sum off by more than 2^63, {beyond_64} by more than 2^64, the most \
             by 2^{largest:.4}"
        );
        assert!(beyond_64 > 0 && beyond_63 > beyond_64, "no sums so large");
    }
}

fn any_matrix(random: &mut Random) -> Matrix {
    let kind = random.choose(&Kind::ALL);
    kind.matrix(random)
}

/// R and Q filled with three words: above R's diagonal, on it and in Q. The largest sums are those of
/// Q full of lowest words, 2^66.
#[test]
fn records_filled_with_extreme_words() {
    let (mut large, mut number) = (Large::new(), 0);
    for above in EXTREMES {
        for diagonal in EXTREMES {
            for q in EXTREMES {
                let mut random = Random::for_case(1311, number);
                let mut words = by_halves(above, q);
                let mut word = || words.next().expect("they never end");
                let area = triangle(&mut word, |_| diagonal);
                let matrix = any_matrix(&mut random);
                let pair = Pair { matrix, area };
                large.verify("extreme words", 1311, number, &pair);
                number += 1;
            }
        }
    }
    large.print_and_require_large("R and Q filled with extreme words");
    let largest = (1_i128 << 66) - (1 << 60);
    assert!(large.largest >= largest, "{}", large.largest);
    large.compared.seen.assert_numbers(&[8]);
}

/// Each extreme word at each place of R and Q, beside what a board wrote.
#[test]
fn extreme_words_at_every_place() {
    let mut compared = Compared::new([Rule::Modulo(32), Rule::Alone(Family::Rows)]);
    let mut number = 0;
    for word in EXTREMES {
        for (row, column) in places().flat_map(|(i, j)| [(i, j), (i, REAL_SIZE + j)]) {
            let matrix = Kind::FullRange.matrix(&mut Random::for_case(1312, number));
            let mut pair = Pair::of_board(matrix);
            pair.area.set_word(row, column, word);
            let reply = compared.verify("one extreme word", 1312, number, &pair);
            let refused = column < row && word != 0 || column == row && row < 15 && word < 0;
            let due = if refused { 8 } else { 0 };
            assert_eq!(reply.number, due, "{word} at ({row}, {column})");
            number += 1;
        }
    }
    compared.print_and_require_all_rules("An extreme word at every place");
    compared.seen.assert_numbers(&[8]);
}

/// R and Q, each of words drawn in one way. A diagonal word that would be refused is made positive.
fn drawn(r: Words, q: Words, random: &mut Random) -> WorkArea {
    let diagonals: [i32; REAL_SIZE] = std::array::from_fn(|i| match r.draw(random) {
        word if i == REAL_SIZE - 1 => word,
        word => word.saturating_abs(),
    });
    let mut ways = by_halves(r, q);
    let mut word = || ways.next().expect("they never end").draw(random);
    triangle(&mut word, |i| diagonals[i])
}

#[test]
fn arbitrary_words_agree() {
    let (mut large, mut number) = (Large::new(), 0);
    for r in Words::ALL {
        for q in Words::ALL {
            for _ in 0..RECORDS {
                let mut random = Random::for_case(1313, number);
                let area = drawn(r, q, &mut random);
                let matrix = any_matrix(&mut random);
                large.verify("arbitrary words", 1313, number, &Pair { matrix, area });
                number += 1;
            }
        }
    }
    large.print_and_require_large("Arbitrary words");
    large.compared.seen.assert_numbers(&[]);
}
