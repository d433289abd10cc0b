//! What the program `qr` makes of its input.

use crate::area::AREA_WORDS;
use crate::calls;
use crate::records::RESULT_RECORD;

/// The kind byte of a refusal record.
pub const REFUSAL_KIND: u8 = 3;

/// Bytes that the program reads: one more than a matrix record has.
pub const READ_LIMIT: usize = 258;

/// The result record or the refusal record that answers an input.
pub fn respond(input: &[u8]) -> Vec<u8> {
    let record = &input[..input.len().min(READ_LIMIT)];
    let mut buffer = [0; RESULT_RECORD];
    match calls::whole(record, &mut [0; AREA_WORDS], &mut buffer).number {
        0 => buffer.to_vec(),
        number => vec![REFUSAL_KIND, number],
    }
}

#[cfg(test)]
mod tests {
    use super::*;

    #[test]
    fn refusals_are_two_bytes() {
        assert_eq!(respond(&[]), [3, 1]);
        assert_eq!(respond(&[1; 256]), [3, 2]);
        assert_eq!(respond(&[1; 300]), [3, 2]);
        assert_eq!(respond(&[7; 300]), [3, 1]);
    }

    #[test]
    fn a_result_is_a_result_record() {
        let result = respond(&[1; 257]);
        assert_eq!((result.len(), result[0]), (2049, 2));
    }
}
