//! Weights: those worked out by hand, to the bit, those of a matrix that was factored, and refusals.
use crate::lent::{matrix, mixed_matrix, Lent};
use hubqr::Refusal::{self, *};
use hubqr::{ffi, Sample, Weight};
use hubqr::{ANTENNAS, KIND_REFUSAL, KIND_RESULT, Q_ONE, RESULT_RECORD_BYTES};
use std::mem::{offset_of, size_of};

/// The targets and the weights have 16 parts each: eight real ones, then eight imaginary ones.
const PARTS: usize = 2 * ANTENNAS;

/// The bits of 8192 / 3, which is rounded down: 3 times that is 2^-41 less than 8192, half a step
/// there, and is rounded to 8192.
const THIRD: u64 = 0x40a5_5555_5555_5555;

/// What a call is handed.
#[derive(Clone)]
struct Handed {
    record: Vec<u8>,
    parts: [i16; PARTS],
}

impl Handed {
    /// A record with 3 on R's diagonal and one on Q's, and targets of 0. A target part of 1 makes
    /// 2^30 / 131072 = 8192, and 8192 / 3 in the weights.
    fn new() -> Handed {
        let mut record = vec![0; RESULT_RECORD_BYTES];
        record[0] = KIND_RESULT;
        let parts = [0; PARTS];
        let empty = Handed { record, parts };
        (0..PARTS).fold(empty, |handed, n| handed.r(n, n, 3).qt(n, n, Q_ONE))
    }

    /// With word (i, j) of R.
    fn r(self, i: usize, j: usize, word: i32) -> Handed {
        self.word(PARTS * i + j, word)
    }

    /// With word (i, j) of Q transposed.
    fn qt(self, i: usize, j: usize, word: i32) -> Handed {
        self.word(PARTS * (PARTS + i) + j, word)
    }

    fn word(mut self, place: usize, word: i32) -> Handed {
        self.record[1 + 4 * place..][..4].copy_from_slice(&word.to_be_bytes());
        self
    }

    /// With part n of the targets.
    fn part(mut self, n: usize, part: i16) -> Handed {
        self.parts[n] = part;
        self
    }

    fn targets(&self) -> [Sample; ANTENNAS] {
        std::array::from_fn(|k| Sample {
            re: self.parts[k],
            im: self.parts[ANTENNAS + k],
        })
    }

    /// The parts of the weights.
    fn weights(&self) -> [f64; PARTS] {
        let weights = hubqr::weights(&self.record, self.targets()).unwrap();
        std::array::from_fn(|n| match n < ANTENNAS {
            true => weights[n].re,
            false => weights[n - ANTENNAS].im,
        })
    }

    /// The parts of the weights have these bits, the others those of +0.0.
    fn gives(&self, parts: &[(usize, u64)]) {
        let mut due = [0; PARTS];
        for &(n, bits) in parts {
            due[n] = bits;
        }
        assert_eq!(self.weights().map(f64::to_bits), due);
    }

    /// The safe call refuses, and the archive's reply has weights of +0.0.
    fn refused(&self, with: Refusal) {
        let (record, samples) = (&self.record, self.targets());
        assert_eq!(hubqr::weights(record, samples), Err(with));
        let targets = ffi::Snapshot { samples };
        // SAFETY: pointer and length are those of one vector.
        let reply = unsafe { ffi::hubqr_weights(record.as_ptr(), record.len(), targets) };
        assert_eq!(reply.number, with.number());
        for weight in reply.weights {
            assert_eq!((weight.re.to_bits(), weight.im.to_bits()), (0, 0));
        }
    }
}

/// The bits of the negative of a number, whose bits are given.
fn negative(bits: u64) -> u64 {
    bits | 1 << 63
}

#[test]
fn structs_of_weights_have_their_layout_in_c() {
    assert_eq!(size_of::<Weight>(), 16);
    assert_eq!((offset_of!(Weight, re), offset_of!(Weight, im)), (0, 8));
    assert_eq!(size_of::<ffi::WeightsReply>(), 136);
    assert_eq!(offset_of!(ffi::WeightsReply, number), 0);
    assert_eq!(offset_of!(ffi::WeightsReply, weights), 8);
}

#[test]
fn a_part_of_the_targets_gives_that_part_of_the_weights() {
    Handed::new().gives(&[]);
    for n in 0..PARTS {
        Handed::new().part(n, 1).gives(&[(n, THIRD)]);
        Handed::new().part(n, -1).gives(&[(n, negative(THIRD))]);
    }
}

#[test]
fn word_i_j_of_q_transposed_takes_part_j_to_part_i() {
    for (i, j) in (0..256).map(|place| (place / PARTS, place % PARTS)) {
        let handed = Handed::new().qt(j, j, 0).qt(i, j, -Q_ONE).part(j, 1);
        handed.gives(&[(i, negative(THIRD))]);
    }
}

#[test]
fn word_i_j_of_r_takes_part_j_off_row_i() {
    for j in 0..PARTS {
        for i in 0..j {
            let handed = Handed::new().part(j, 1);
            let (positive, other) = (handed.clone().r(i, j, 3), handed.r(i, j, -3));
            positive.gives(&[(i, negative(THIRD)), (j, THIRD)]);
            other.gives(&[(i, THIRD), (j, THIRD)]);
        }
    }
}

/// The smallest sums and an odd one of 46 bits, (2^31 - 1) (2^15 - 1): made a float and then
/// divided, each loses nothing.
#[test]
fn right_hand_sums_are_floats_before_they_are_divided() {
    let smallest = (-17_f64).exp2().to_bits();
    let odd = (70_366_596_661_249.0_f64 * (-17_f64).exp2()).to_bits();
    for n in 0..PARTS {
        let handed = Handed::new().r(n, n, 1).qt(n, n, 1);
        handed.clone().part(n, 1).gives(&[(n, smallest)]);
        handed.clone().part(n, -1).gives(&[(n, negative(smallest))]);
        let handed = handed.qt(n, n, i32::MAX).part(n, i16::MAX);
        handed.gives(&[(n, odd)]);
    }
}

/// Row 13 begins with 8192, from which 3 times 8192 / 3 is taken, and then 8192 / 3. The product is
/// rounded to 8192. Fused, it would leave 2^-41 more; from the last column on, the first difference
/// would lose a bit.
#[test]
fn columns_rise_and_each_operation_is_rounded() {
    let handed = Handed::new().r(13, 14, 3).r(13, 15, 1);
    let handed = handed.part(13, 1).part(14, 1).part(15, 1);
    let ninth = 0x408c_71c7_1c71_c71c;
    handed.gives(&[(13, negative(ninth)), (14, THIRD), (15, THIRD)]);
}

/// 49 * 8192 divided by 49 is 8192, while times the rounded 1 / 49 it would be less.
#[test]
fn rows_are_divided_by_their_diagonal() {
    let handed = Handed::new().r(2, 2, 49).part(2, 49);
    handed.gives(&[(2, 8192_f64.to_bits())]);
}

#[test]
fn the_last_diagonal_word_may_be_negative() {
    let handed = Handed::new().r(15, 15, -3).r(0, 15, 5);
    handed.gives(&[(15, (-0.0_f64).to_bits())]);
    let handed = Handed::new().r(15, 15, -3).r(0, 15, -3).part(15, 1);
    handed.gives(&[(0, negative(THIRD)), (15, negative(THIRD))]);
}

/// The largest sums, 16 * 2^31 * 2^15 = 2^50, give 2^33 on the right. With 1 on the diagonal and -2^31
/// above it, each row is 2^31 + 1 times the one below it, but for rounding.
#[test]
fn the_largest_words_give_finite_weights() {
    let mut handed = Handed::new();
    for (i, j) in (0..256).map(|place| (place / PARTS, place % PARTS)) {
        handed = handed.qt(i, j, i32::MIN).part(j, i16::MIN);
        if i <= j {
            handed = handed.r(i, j, if i == j { 1 } else { i32::MIN });
        }
    }
    let parts = handed.weights();
    assert_eq!(parts[15], 2_f64.powi(33));
    assert_eq!(parts[14], 2_f64.powi(64) + 2_f64.powi(33));
    let first = parts[0] / 2_f64.powi(498);
    assert!(first > 1.0 && first < 1.000001, "{first}");
}

/// Factors a matrix, and compares the parts of the weights that it gives for targets.
fn weighs(record: &[u8], targets: [i16; PARTS], due: [f64; PARTS]) {
    let mut lent = Lent::new();
    hubqr::whole(record, &mut lent.area, &mut lent.buffer).unwrap();
    lent.buffer.truncate(RESULT_RECORD_BYTES);
    let handed = Handed {
        record: lent.buffer,
        parts: targets,
    };
    for (part, due) in handed.weights().into_iter().zip(due) {
        assert!((part - due).abs() < 0.0001, "{part} {due}");
    }
}

/// With one half on the diagonal, a target of 0.25 - 0.125i gives a weight of 0.5 - 0.25i.
#[test]
fn a_factored_matrix_gives_the_weights_that_solve_it() {
    let half = |i, j| if i == j { (16384, 0) } else { (0, 0) };
    for k in 0..ANTENNAS {
        let (mut targets, mut due) = ([0; PARTS], [0.0; PARTS]);
        (targets[k], targets[ANTENNAS + k]) = (8192, -4096);
        (due[k], due[ANTENNAS + k]) = (0.5, -0.25);
        weighs(&matrix(half), targets, due);
    }
}

/// With i/2 at (2, 5) besides one half on the diagonal, weights of 0.5 and 0.25 - 0.5i make
/// 0.25 + i (0.125 - 0.25i) = 0.5 + 0.125i of row 2.
#[test]
fn imaginary_elements_turn_the_weights() {
    let record = matrix(|i, j| match (i, j) {
        (2, 5) => (0, 16384),
        _ if i == j => (16384, 0),
        _ => (0, 0),
    });
    let (mut targets, mut due) = ([0; PARTS], [0.0; PARTS]);
    (targets[2], targets[ANTENNAS + 2]) = (16384, 4096);
    (targets[5], targets[ANTENNAS + 5]) = (4096, -8192);
    (due[2], due[5], due[ANTENNAS + 5]) = (0.5, 0.25, -0.5);
    weighs(&record, targets, due);
}

#[test]
fn kind_and_length_are_tested_first() {
    for handed in [Handed::new(), Handed::new().r(7, 7, 0)] {
        let handed = handed.part(0, 1);
        let parts = handed.parts;
        let refuse = |record: Vec<u8>, with| Handed { record, parts }.refused(with);
        let record = handed.record;
        refuse(vec![], WrongKind);
        refuse(mixed_matrix(), WrongKind);
        refuse([&[KIND_REFUSAL], &record[1..]].concat(), WrongKind);
        refuse([&[KIND_REFUSAL], &record[2..]].concat(), WrongKind);
        refuse(vec![KIND_RESULT], WrongLength);
        refuse(record[..RESULT_RECORD_BYTES - 1].to_vec(), WrongLength);
        refuse([&record[..], &[0]].concat(), WrongLength);
    }
}

/// With a diagonal word of 0 and without: 8 comes before 11.
#[test]
fn a_wrong_word_of_r_is_refused() {
    for (i, j) in (0..255).map(|place| (place / PARTS, place % PARTS)) {
        if i >= j {
            let handed = Handed::new()
                .part(0, 1)
                .r(i, j, if i == j { -1 } else { 1 });
            handed.refused(NotTriangular);
            handed.r(15, 15, 0).refused(NotTriangular);
        }
    }
}

#[test]
fn a_diagonal_word_of_0_is_refused() {
    for n in 0..PARTS {
        let handed = Handed::new().part(0, 1).r(n, n, 0);
        handed.refused(ZeroDiagonal);
        handed.r(0, 15, 1).refused(ZeroDiagonal);
    }
}
