//! Quotients at and around every whole number: toward zero, and clamped from above alone.

use reference::covariance::SUM_WORDS;

use crate::common::sums::{BothSums, Seen};
use crate::common::Case;

const COUNTS: [u32; 8] = [1, 2, 3, 7, 1_000, 2_048, 4_095, 4_096];

/// A sum next to `whole` times the divisor, and the part that it becomes.
struct Quotient {
    whole: i64,
    /// -1, 0 or 1: how far from the multiple the sum lies.
    from: i64,
}

impl Quotient {
    fn sum(&self, count: u32) -> i64 {
        self.whole * 65_536 * i64::from(count) + self.from
    }

    /// One nearer to 0 where the sum lies on that side of the multiple.
    fn part(&self) -> i64 {
        let nearer = self.whole * self.from < 0;
        let part = if nearer {
            self.whole + self.from
        } else {
            self.whole
        };
        part.min(32_767)
    }
}

/// All of them from -32,768 to 32,768 but the two sums that lie beyond.
fn quotients() -> Vec<Quotient> {
    let wholes = -32_768..=32_768;
    let near = wholes.flat_map(|whole| [-1, 0, 1].map(|from| Quotient { whole, from }));
    near.filter(|q| q.sum(1).abs() <= 1 << 31).collect()
}

/// One of the 128 parts of a matrix record.
fn part(record: &[u8; 257], place: usize) -> i64 {
    let at = 1 + 2 * place;
    i16::from_be_bytes([record[at], record[at + 1]]).into()
}

#[test]
fn quotients_around_every_whole_number_are_toward_zero_and_clamped() {
    let (mut seen, quotients) = (Seen::default(), quotients());
    assert_eq!(quotients.len(), 3 * 65_537 - 2);
    for (count, seed) in COUNTS.into_iter().zip(731..) {
        for (chunk, number) in quotients.chunks(SUM_WORDS).zip(0..) {
            // Another place for each count, among them real and imaginary parts.
            let place = |k: usize| (k + count as usize) % SUM_WORDS;
            let mut words = [0; SUM_WORDS];
            for (k, quotient) in chunk.iter().enumerate() {
                words[place(k)] = quotient.sum(count);
            }
            let case = Case::of_words("quotients", seed, number);
            let mut both = BothSums::of_words(case, count, &words, &mut seen);
            let number = both.write(257);
            both.require(number == 0, "sums within their range were refused");
            for (k, quotient) in chunk.iter().enumerate() {
                let part = part(both.record(), place(k));
                both.require(part == quotient.part(), "a quotient is wrong");
            }
        }
    }
    seen.print(&format!(
        "{} quotients for each of {} counts",
        quotients.len(),
        COUNTS.len()
    ));
}
