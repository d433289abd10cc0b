//! Records of every length and with damage of every kind.

mod common;

use common::heard::{heard_in, Heard};
use common::{Both, Case};
use reference::calls;
use reference::cases::Kind;
use reference::job::Job;
use reference::matrix::{Complex, Matrix, REAL_SIZE};
use reference::random::Random;
use reference::records::{parse_result, write_matrix, MATRIX_RECORD, RESULT_RECORD};

const LONGEST: usize = 300;

/// A matrix record with random bytes behind it.
fn long_matrix_record(random: &mut Random) -> Vec<u8> {
    let mut record = write_matrix(&Kind::FullRange.matrix(random)).to_vec();
    record.resize_with(LONGEST, || random.byte());
    record
}

/// The record of a matrix with these real parts on the diagonal and anything elsewhere.
fn record_with_diagonal(random: &mut Random, re: impl FnMut(usize) -> i16) -> [u8; MATRIX_RECORD] {
    let any = Matrix::from_fn(|_, _| Complex::new(random.part(), random.part()));
    write_matrix(&any.with_diagonal(re))
}

/// The result record of a random matrix.
fn result_record(random: &mut Random) -> Vec<u8> {
    let record = write_matrix(&Kind::FullRange.matrix(random));
    let mut buffer = vec![0; RESULT_RECORD];
    let reply = calls::whole(&record, &mut [0; 512], &mut buffer);
    assert_eq!(reply.number, 0);
    buffer
}

/// The place of R's word (i, j) in a result record.
fn place(i: usize, j: usize) -> usize {
    1 + 4 * (REAL_SIZE * i + j)
}

/// Load and Whole of one record with areas and buffers that suffice, and with ones that do not.
fn load_and_whole(case: &Case, record: &[u8]) {
    for (words, bytes) in [(512, 2049), (513, 2050), (511, 2049), (512, 2048)] {
        let mut both = Both::new(case.clone());
        both.lend(words, bytes);
        both.load(record);
        both.whole(record);
    }
}

#[test]
fn matrix_records_of_every_length() {
    let mut random = Random::new(201);
    let valid = long_matrix_record(&mut random);
    let mut zeros = vec![0; LONGEST];
    zeros[0] = 1;
    let mut unheard = record_with_diagonal(&mut random, |_| 16).to_vec();
    unheard.resize_with(LONGEST, || random.byte());
    for length in 0..=LONGEST {
        let mut wrong = valid[..length].to_vec();
        if let Some(kind) = wrong.first_mut() {
            *kind = random.choose(&[0, 2, 3, 0x81, 0xFF]);
        }
        for record in [&valid, &wrong, &zeros, &unheard].map(|record| &record[..length]) {
            load_and_whole(&Case::new("lengths", 201, length as u64, record), record);
        }
    }
}

#[test]
fn every_kind_byte() {
    let mut heard = long_matrix_record(&mut Random::new(202));
    heard.truncate(MATRIX_RECORD);
    let mut unheard = record_with_diagonal(&mut Random::new(211), |_| 16);
    let mut result = result_record(&mut Random::new(203));
    for kind in 0..=255 {
        (heard[0], unheard[0], result[0]) = (kind, kind, kind);
        for matrix in [&heard[..], &unheard] {
            load_and_whole(&Case::new("kinds", 202, kind.into(), matrix), matrix);
        }
        Both::new(Case::new("kinds", 203, kind.into(), &result)).read(&result);
    }
}

/// Each of the bits from 32 to 16384 of a real part on the diagonal makes its antenna heard.
#[test]
fn matrix_records_with_one_bit() {
    let mut seen = Heard::default();
    for bit in 0..8 * (MATRIX_RECORD - 1) {
        let mut record = [0; MATRIX_RECORD];
        record[0] = 1;
        record[1 + bit / 8] = 1 << (bit % 8);
        let case = Case::new("one bit", 0, bit as u64, &record);
        seen.require(&case, &record, heard_in(&record));
    }
    seen.print("Matrix records with one bit");
    assert_eq!((seen.accepted, seen.refused), (8 * 10, 2048 - 8 * 10));
}

/// Flips each bit behind the kind byte, and counts the records that are accepted and refused then.
fn flip_each_bit(seed: u64, re: impl FnMut(usize) -> i16) -> (u64, u64) {
    let valid = record_with_diagonal(&mut Random::new(seed), re);
    let mut seen = Heard::default();
    for bit in 0..8 * (MATRIX_RECORD - 1) {
        let mut record = valid;
        record[1 + bit / 8] ^= 1 << (bit % 8);
        let case = Case::new("flipped bit", seed, bit as u64, &record);
        seen.require(&case, &record, heard_in(&record));
    }
    seen.print("Matrix records with a flipped bit");
    (seen.accepted, seen.refused)
}

/// At every antenna 16 becomes more with each bit but its own and the sign.
#[test]
fn a_flipped_bit_makes_an_antenna_heard() {
    assert_eq!(flip_each_bit(212, |_| 16), (8 * 14, 2048 - 8 * 14));
}

/// A single 17 becomes 16, 1 and negative with one bit each.
#[test]
fn a_flipped_bit_makes_the_only_antenna_unheard() {
    let re = |k| if k == 6 { 17 } else { 16 };
    assert_eq!(flip_each_bit(213, re), (2048 - 3, 3));
}

#[test]
fn result_records_of_many_lengths() {
    let mut random = Random::new(204);
    let mut valid = result_record(&mut random);
    valid.resize_with(4100, || random.byte());
    let short = (0..=LONGEST).chain([511, 512, 1024, 1025]);
    for length in short.chain(2000..2100).chain([4096, 4097, 4100]) {
        let mut wrong = valid[..length].to_vec();
        if let Some(kind) = wrong.first_mut() {
            *kind = random.choose(&[0, 1, 3, 0x82]);
        }
        for record in [&valid[..length], &wrong] {
            for words in [511, 512, 513] {
                let mut both = Both::new(Case::new("results", 204, length as u64, record));
                both.lend(words, RESULT_RECORD);
                both.read(record);
            }
        }
    }
}

#[test]
fn each_word_of_r_is_tested_at_read_and_fetch() {
    let mut random = Random::new(205);
    let valid = result_record(&mut random);
    for i in 0..REAL_SIZE {
        for j in 0..REAL_SIZE {
            let mut record = valid.clone();
            let bit: i32 = 1 << random.below(31);
            let damage = random.choose(&[-1, i32::MIN, bit]);
            record[place(i, j)..][..4].copy_from_slice(&damage.to_be_bytes());
            let refused = i > j || (i == j && i < REAL_SIZE - 1 && damage < 0);
            let number = if refused { 8 } else { 0 };
            let case = Case::new("words of R", 205, (REAL_SIZE * i + j) as u64, &record);
            let mut both = Both::new(case);
            assert_eq!(both.read(&record).number, number);
            let area = parse_result(&record).expect("kind and length are right");
            both.fill_area(&area.to_words());
            assert_eq!(both.fetch(Job::READ).number, number);
        }
    }
}

#[test]
fn result_records_with_a_damaged_byte() {
    let (mut accepted, mut refused) = (0, 0);
    for number in 0..2000 {
        let mut random = Random::for_case(206, number / 20);
        let mut record = result_record(&mut random);
        let mut random = Random::for_case(207, number);
        let at = 1 + random.below(RESULT_RECORD - 1);
        record[at] ^= 1 << random.below(8);
        let mut both = Both::new(Case::new("damaged byte", 207, number, &record));
        let reply = both.read(&record);
        if reply.number == 0 {
            accepted += 1;
            both.fetch(reply.job);
            both.require(both.fetched() == record, "not written again byte for byte");
        } else {
            refused += 1;
        }
    }
    println!("\nResult records with a damaged byte: {accepted} accepted, {refused} refused");
    assert!(accepted > 0 && refused > 0);
}

#[test]
fn the_first_word_is_refused_by_its_sign_alone() {
    for number in 0..2 {
        let (word, refusal) = if number == 0 {
            (0x00FF_FFFF_u32, 0)
        } else {
            (u32::MAX, 8)
        };
        let mut record = result_record(&mut Random::for_case(210, number));
        record[1..5].copy_from_slice(&word.to_be_bytes());
        let mut both = Both::new(Case::new("first word", 210, number, &record));
        assert_eq!(both.read(&record).number, refusal, "first word {word:08X}");
    }
}

#[test]
fn fetch_refuses_a_damaged_area() {
    for number in 0..500 {
        let case = Case::of_words("damaged area", 208, number);
        let mut random = case.random();
        let record = write_matrix(&Kind::FullRange.matrix(&mut random));
        let mut both = Both::new(Case {
            record: Some(record.to_vec()),
            ..case
        });
        both.whole(&record);
        let mut words = both.area().to_words();
        let any = random.word();
        words[random.below(512)] = random.choose(&[-1, 1, i32::MIN, any]);
        both.fill_area(&words);
        both.fetch(Job::new(120, 120));
    }
}
