//! Verify: yes to what the engine writes, no to what is damaged or another's, and sums that 64 bits do
//! not hold.
mod case;
mod limits;
mod refused;

use crate::lent::{at, equal_parts, matrix, mixed_matrix, Lent};
use case::{other_antenna, places, Case, Words, SIZE};
use hubqr::Role::{Fitter, Operator};
use hubqr::{Desk, Q_ONE, RESULT_RECORD_BYTES, SECTORS};

/// More than any word of a result may be off: times the largest word of a row or column of Q, which is
/// at least 2^28, it is 2^48.
const DAMAGE: i32 = 1 << 20;

/// Matrices with the largest and the smallest parts, and some that are nearly empty.
fn matrices() -> Vec<Vec<u8>> {
    let mut matrices = vec![
        mixed_matrix(),
        equal_parts(17),
        equal_parts(i16::MAX),
        matrix(|i, j| (i16::MAX, if i == j { 0 } else { i16::MIN })),
        matrix(|i, j| ((17 * i + j) as i16, (8 * j) as i16 - (i * i) as i16)),
    ];
    matrices.extend((0..8).map(|k| matrix(|i, j| (if (i, j) == (k, k) { 17 } else { 0 }, 0))));
    matrices.extend((0..8).map(|k| matrix(|i, j| (if i == j { i16::MAX } else { k }, -k))));
    matrices
}

/// The result record that Whole writes.
fn whole(record: &[u8]) -> Vec<u8> {
    let mut lent = Lent::new();
    hubqr::whole(record, &mut lent.area, &mut lent.buffer).unwrap();
    lent.buffer.truncate(RESULT_RECORD_BYTES);
    lent.buffer
}

/// The result record that Fetch writes after Runs of one allowance.
fn fetched(record: &[u8], allowance: u16) -> Vec<u8> {
    let mut lent = Lent::new();
    let mut job = hubqr::load(record, &mut lent.area).unwrap().job;
    while !job.is_finished() {
        job = hubqr::run(job, allowance, &mut lent.area).unwrap().job;
    }
    hubqr::fetch(job, &lent.area, &mut lent.buffer).unwrap();
    lent.buffer.truncate(RESULT_RECORD_BYTES);
    lent.buffer
}

#[test]
fn what_the_engine_writes_gets_yes() {
    for record in matrices() {
        let result = whole(&record);
        assert_eq!(hubqr::verify(&record, &result), Ok(true));
        for allowance in [7, 120] {
            let result = fetched(&record, allowance);
            assert_eq!(hubqr::verify(&record, &result), Ok(true));
        }
        let mut lent = Lent::new();
        let restored = hubqr::read(&result, &mut lent.area).unwrap();
        hubqr::fetch(restored.job, &lent.area, &mut lent.buffer).unwrap();
        let again = &lent.buffer[..RESULT_RECORD_BYTES];
        assert_eq!(hubqr::verify(&record, again), Ok(true));
    }
}

/// Runs a sector's job to its end. Each sector has 15 turns in a round.
fn finish(desk: &mut Desk, sector: u32, area: &mut [i32]) {
    while !desk.jobs[sector as usize].is_finished() {
        desk.begin(Operator).unwrap();
        desk.run(Operator, sector, 15, area).unwrap();
    }
}

/// A matrix waits while the one before is worked and fetched by both roles, and is then brought in.
#[test]
fn what_the_desk_fetches_gets_yes_with_the_matrix_that_was_loaded() {
    let matrices = matrices();
    let mut desk = Desk::new();
    for (first, sector) in matrices.iter().zip((0..SECTORS as u32).cycle()) {
        let (second, mut lent) = (equal_parts(1000), Lent::new());
        desk.hand_in(Operator, sector, first, &mut lent.area)
            .unwrap();
        desk.hand_in(Operator, sector, &second, &mut lent.area)
            .unwrap();
        finish(&mut desk, sector, &mut lent.area);
        for role in [Fitter, Operator] {
            desk.fetch(role, sector, &mut lent.area, &mut lent.buffer)
                .unwrap();
            let result = &lent.buffer[..RESULT_RECORD_BYTES];
            assert_eq!(hubqr::verify(first, result), Ok(true));
            assert_eq!(hubqr::verify(&second, result), Ok(false));
        }
        assert_eq!(desk.jobs[sector as usize], at(0, 0));
        finish(&mut desk, sector, &mut lent.area);
        desk.fetch(Operator, sector, &mut lent.area, &mut lent.buffer)
            .unwrap();
        let result = &lent.buffer[..RESULT_RECORD_BYTES];
        assert_eq!(hubqr::verify(&second, result), Ok(true));
        assert_eq!(hubqr::verify(first, result), Ok(false));
    }
}

/// Each word but those of R under the diagonal, for which the record would be refused, as it would be
/// for a negative one on it.
#[test]
fn each_damaged_word_is_noticed() {
    let record = mixed_matrix();
    let case = Case::of(&record, &whole(&record));
    for (i, j) in places() {
        for damage in [DAMAGE, -DAMAGE] {
            let mut damaged = case.clone();
            damaged.q[i][j] += damage;
            assert_eq!(damaged.verdict(), Ok(false), "({i}, {j}) of Q");
            if i < j || i == j && damage > 0 {
                let mut damaged = case.clone();
                damaged.r[i][j] += damage;
                assert_eq!(damaged.verdict(), Ok(false), "({i}, {j}) of R");
            }
        }
    }
}

/// A part of the matrix may be off by a step, since the engine's errors are far below one, and not by
/// four.
#[test]
fn each_part_of_the_matrix_counts() {
    let record = mixed_matrix();
    let result = whole(&record);
    for part in 0..128 {
        for (steps, verdict) in [(1, true), (-1, true), (4, false), (-4, false)] {
            let mut other = record.clone();
            let bytes = &mut other[1 + 2 * part..][..2];
            let number = i16::from_be_bytes((&*bytes).try_into().unwrap());
            let Some(changed) = number.checked_add(steps) else {
                continue;
            };
            bytes.copy_from_slice(&changed.to_be_bytes());
            assert_eq!(hubqr::verify(&other, &result), Ok(verdict), "{part}");
        }
    }
}

#[test]
fn factors_in_wrong_places_get_no() {
    let record = mixed_matrix();
    let case = Case::of(&record, &whole(&record));
    let with_q = |word: &dyn Fn(usize, usize) -> i32| {
        let mut case = case.clone();
        places().for_each(|(i, j)| case.q[i][j] = word(i, j));
        case.verdict()
    };
    assert_eq!(with_q(&|i, j| case.q[i][j]), Ok(true));
    let transposed = with_q(&|i, j| case.q[j][i]);
    let columns_swapped = with_q(&|i, j| case.q[i][j ^ 1]);
    let rows_swapped = with_q(&|i, j| case.q[i ^ 1][j]);
    assert_eq!([transposed, columns_swapped, rows_swapped], [Ok(false); 3]);
}

/// A column of Q and the row of R that it meets may have the opposite signs: in the last row R's rule
/// allows that. The engine writes another record, and both get yes.
#[test]
fn a_record_need_not_be_the_engines() {
    for record in matrices() {
        let mut case = Case::of(&record, &whole(&record));
        for k in 0..SIZE {
            case.q[k][SIZE - 1] *= -1;
        }
        case.r[SIZE - 1][SIZE - 1] *= -1;
        assert_ne!(case.result(), whole(&record));
        assert_eq!(hubqr::verify(&record, &case.result()), Ok(true));
    }
}

/// The sum of products of rows i and j of Q, as 64 bits hold it.
fn wrapped(q: &Words, i: usize, j: usize) -> i64 {
    let product = |k: usize| i64::from(q[i][k]) * i64::from(q[j][k]);
    (0..SIZE).map(product).fold(0, i64::wrapping_add)
}

/// In five rows and columns Q has -1 on the diagonal and -2 elsewhere: the sums of products of their
/// rows are 17 or 16 in place of 1 or 0, and 16 times 2^60 is 2^64. So 64 bits show nothing.
#[test]
fn sums_that_are_right_modulo_2_to_the_64_get_no() {
    for first in 0..SIZE {
        let odd: [usize; 5] = std::array::from_fn(|n| (first + n) % SIZE);
        let mut case = Case::heard_at(other_antenna(&odd));
        assert_eq!(case.verdict(), Ok(true));
        for (i, j) in places().filter(|(i, j)| odd.contains(i) && odd.contains(j)) {
            case.q[i][j] = if i == j { -Q_ONE } else { i32::MIN };
        }
        for (i, j) in places() {
            assert_eq!(wrapped(&case.q, i, j), if i == j { 1 << 60 } else { 0 });
        }
        assert_eq!(case.verdict(), Ok(false), "{odd:?}");
    }
}

/// The largest sums of all: 16 * 2^62 = 2^66, and those just below.
#[test]
fn the_largest_words_get_no() {
    for (r, q) in [
        (i32::MIN, i32::MIN),
        (i32::MIN, i32::MAX),
        (i32::MAX, i32::MIN),
        (i32::MAX, i32::MAX),
    ] {
        let mut case = Case::heard_at(0);
        for (i, j) in places() {
            case.q[i][j] = q;
            case.r[i][j] = if i < j { r } else { 0 };
        }
        assert_eq!(case.verdict(), Ok(false));
        for k in 0..SIZE {
            case.r[k][k] = i32::MAX;
        }
        assert_eq!(case.verdict(), Ok(false));
    }
}
