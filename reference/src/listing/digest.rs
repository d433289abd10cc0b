//! Digests of memory: its bytes are the digits of a number in base 1000003, and before each digit
//! the number is taken modulo a prime.

const BASE: u64 = 1_000_003;
const MODULUS: u64 = 1_099_511_627_689;

/// A word counts as its four bytes, high byte first.
pub fn of_words(words: &[i32]) -> u64 {
    digest(words.iter().flat_map(|word| word.to_be_bytes()))
}

pub fn of_bytes(bytes: &[u8]) -> u64 {
    digest(bytes.iter().copied())
}

fn digest(bytes: impl Iterator<Item = u8>) -> u64 {
    bytes.fold(1, |digest, byte| digest % MODULUS * BASE + u64::from(byte))
}

#[cfg(test)]
mod tests {
    use super::*;

    #[test]
    fn words_next_to_zero_and_to_the_ends_differ() {
        let mut digests = [0, 1, 4, -1, -5, i32::MIN, i32::MAX].map(|word| of_words(&[word]));
        digests.sort();
        assert!(digests.windows(2).all(|pair| pair[0] < pair[1]));
    }

    #[test]
    fn the_order_of_bytes_counts() {
        assert_ne!(of_bytes(&[1, 2]), of_bytes(&[2, 1]));
    }
}
