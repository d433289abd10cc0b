//! Snapshots added up and written: sums, parts and refusals.
use crate::heard::hears;
use crate::lent::{at, matrix, Lent};
use hubqr::Refusal::{self, *};
use hubqr::{ffi, Covariance, Sample};
use hubqr::{ANTENNAS, HEARD_ABOVE, KIND_RESULT, MATRIX_RECORD_BYTES, SNAPSHOTS_MAX, SUM_WORDS};
use std::mem::{offset_of, size_of};

/// A sum may be this far from 0 for each snapshot.
const REACH: i64 = 1 << 31;

/// The first, a middle and the last of the sums.
const PLACES: [usize; 3] = [0, 65, SUM_WORDS - 1];

/// A snapshot in which two antennas hear something: 1 + 2i and 3 + 4i, times a factor.
fn two_heard(factor: i16) -> [Sample; ANTENNAS] {
    let mut snapshot = [Sample::default(); ANTENNAS];
    snapshot[0] = sample(factor, 2 * factor);
    snapshot[1] = sample(3 * factor, 4 * factor);
    snapshot
}

/// Snapshot k of many that differ, with both ends of the 16-bit range in each.
fn mixed(k: u32) -> [Sample; ANTENNAS] {
    let mut snapshot = [sample(i16::MIN, i16::MAX); ANTENNAS];
    for (i, place) in (1..).zip(&mut snapshot[1..]) {
        let seed = (8 * k + i).wrapping_mul(2654435761);
        *place = sample((seed >> 16) as i16, seed as i16);
    }
    snapshot
}

fn sample(re: i16, im: i16) -> Sample {
    Sample { re, im }
}

/// Sums that are 0 but for one.
fn with_sum(count: u32, place: usize, sum: i64) -> Covariance {
    let mut words = [0; SUM_WORDS];
    words[place] = sum;
    Covariance::from_parts(count, words)
}

/// The parts of the matrix record, in the order of the sums, after a look at the bytes behind them.
fn written(covariance: &Covariance) -> [i16; SUM_WORDS] {
    let before = covariance.clone();
    let mut lent = Lent::new();
    covariance.write(&mut lent.buffer).unwrap();
    assert_eq!(*covariance, before);
    let (record, behind) = lent.buffer.split_at(MATRIX_RECORD_BYTES);
    assert_eq!(behind, &Lent::new().buffer[MATRIX_RECORD_BYTES..]);

    let mut exact = [0; MATRIX_RECORD_BYTES];
    covariance.write(&mut exact).unwrap();
    assert_eq!(exact, record);
    let part = |n: usize| i16::from_be_bytes([record[1 + 2 * n], record[2 + 2 * n]]);
    let parts = std::array::from_fn(part);
    let element = |i: usize, j: usize| (parts[16 * i + 2 * j], parts[16 * i + 2 * j + 1]);
    assert_eq!(record, matrix(element), "kind byte and parts");
    parts
}

/// Adding is refused, and the sums stay.
fn refuses_to_add(mut covariance: Covariance) {
    let before = covariance.clone();
    assert_eq!(covariance.add(mixed(1)), Err(SumsOutOfRange));
    assert_eq!(covariance, before);
}

/// Writing is refused, and the buffer stays.
fn refuses_to_write(covariance: &Covariance, bytes: usize, with: Refusal) {
    let mut lent = Lent::new();
    assert_eq!(covariance.write(&mut lent.buffer[..bytes]), Err(with));
    assert_eq!(lent, Lent::new());
}

/// Both calls refuse sums that are out of range.
fn out_of_range(covariance: Covariance) {
    refuses_to_write(&covariance, MATRIX_RECORD_BYTES, SumsOutOfRange);
    refuses_to_add(covariance);
}

#[test]
fn structs_of_sums_have_their_layout_in_c() {
    assert_eq!(size_of::<ffi::Sample>(), 4);
    assert_eq!((offset_of!(Sample, re), offset_of!(Sample, im)), (0, 2));
    assert_eq!(size_of::<ffi::Snapshot>(), 32);
    assert_eq!(offset_of!(ffi::Snapshot, samples), 0);
    assert_eq!(size_of::<ffi::Sums>(), 1032);
    assert_eq!(offset_of!(ffi::Sums, count), 0);
    assert_eq!(offset_of!(ffi::Sums, words), 8);
    assert_eq!(size_of::<ffi::AddReply>(), 1040);
    assert_eq!(offset_of!(ffi::AddReply, number), 0);
    assert_eq!(offset_of!(ffi::AddReply, sums), 8);
}

#[test]
fn a_new_covariance_is_empty() {
    let none = Covariance::new();
    assert_eq!((none.count(), none.words()), (0, &[0; SUM_WORDS]));
    assert_eq!(none, Covariance::default());
    assert_eq!(none, Covariance::from_parts(0, [0; SUM_WORDS]));
}

#[test]
fn sample_i_times_the_conjugate_of_sample_j() {
    let mut covariance = Covariance::new();
    covariance.add(two_heard(1)).unwrap();
    let mut expected = [0; SUM_WORDS];
    expected[..4].copy_from_slice(&[5, 0, 11, 2]);
    expected[16..20].copy_from_slice(&[11, -2, 25, 0]);
    assert_eq!((covariance.count(), covariance.words()), (1, &expected));
}

#[test]
fn one_snapshot_is_enough_for_a_record() {
    let mut covariance = Covariance::new();
    covariance.add(two_heard(256)).unwrap();
    let parts = written(&covariance);
    assert_eq!(parts[..4], [5, 0, 11, 2]);
    assert_eq!(parts[16..20], [11, -2, 25, 0]);
}

#[test]
fn many_snapshots_give_a_hermitian_matrix() {
    let mut covariance = Covariance::new();
    for k in 0..50 {
        covariance.add(mixed(k)).unwrap();
    }
    let (words, parts) = (covariance.words(), written(&covariance));
    for (i, j) in (0..64).map(|element| (element / 8, element % 8)) {
        let (n, m) = (16 * i + 2 * j, 16 * j + 2 * i);
        assert_eq!((words[n], words[n + 1]), (words[m], -words[m + 1]));
        assert_eq!((parts[n], parts[n + 1]), (parts[m], -parts[m + 1]));
    }
}

/// Part q of a sample times the conjugate of another.
fn product(a: Sample, b: Sample, q: usize) -> i64 {
    let [x, y, u, v] = [a.re, a.im, b.re, b.im].map(i64::from);
    [x * u + y * v, y * u - x * v][q]
}

#[test]
fn sums_are_those_of_all_snapshots() {
    let mut covariance = Covariance::new();
    let mut expected = [0; SUM_WORDS];
    for snapshot in (0..50).map(mixed) {
        covariance.add(snapshot).unwrap();
        for (n, sum) in expected.iter_mut().enumerate() {
            *sum += product(snapshot[n / 16], snapshot[n / 2 % 8], n % 2);
        }
    }
    assert_eq!((covariance.count(), covariance.words()), (50, &expected));
}

#[test]
fn largest_samples_clamp_and_the_4097th_is_refused() {
    let mut covariance = Covariance::new();
    for count in 0..SNAPSHOTS_MAX {
        assert_eq!(covariance.count(), count);
        covariance
            .add([sample(i16::MIN, i16::MIN); ANTENNAS])
            .unwrap();
    }
    let (words, parts) = ([[4096 * REACH, 0]; 64], [[i16::MAX, 0]; 64]);
    assert_eq!(covariance.words()[..], words.concat());
    assert_eq!(written(&covariance)[..], parts.concat());
    refuses_to_add(covariance);
}

/// One sum, of either sign, at 2^31 times the count and one beyond it, and at the ends of 64 bits.
fn limits_at(place: usize, count: u32) {
    let limit = REACH * i64::from(count);
    for sign in [-1, 1] {
        let mut covariance = with_sum(count, place, sign * limit);
        if count > 0 {
            written(&covariance);
        }
        if count < SNAPSHOTS_MAX {
            covariance.add(mixed(1)).unwrap();
            assert_eq!(covariance.count(), count + 1);
        }
        out_of_range(with_sum(count, place, sign * (limit + 1)));
    }
    out_of_range(with_sum(count, place, i64::MIN));
    out_of_range(with_sum(count, place, i64::MAX));
}

#[test]
fn sums_may_reach_their_limit_and_not_pass_it() {
    for place in PLACES {
        for count in [0, 1, 7, SNAPSHOTS_MAX - 1, SNAPSHOTS_MAX] {
            limits_at(place, count);
        }
    }
}

#[test]
fn counts_may_reach_4096_and_not_pass_it() {
    let full = with_sum(SNAPSHOTS_MAX, 0, 1);
    written(&full);
    refuses_to_add(full);
    for count in [SNAPSHOTS_MAX + 1, u32::MAX] {
        out_of_range(with_sum(count, 0, 0));
        out_of_range(with_sum(count, 0, 1));
    }
}

#[test]
fn writing_refuses_with_10_then_9_then_7() {
    let none = Covariance::new();
    let mut good = Covariance::new();
    good.add(mixed(1)).unwrap();
    for bytes in [0, 256] {
        refuses_to_write(&with_sum(0, 5, 1), bytes, SumsOutOfRange);
        refuses_to_write(&with_sum(4097, 5, 1), bytes, SumsOutOfRange);
        refuses_to_write(&none, bytes, NoneAdded);
        refuses_to_write(&good, bytes, BufferTooShort);
    }
    refuses_to_write(&none, MATRIX_RECORD_BYTES, NoneAdded);
}

#[test]
fn parts_are_rounded_toward_zero_and_clamped_from_above() {
    for (count, sum, part) in [
        (1, 65535, 0),
        (1, 65536, 1),
        (1, -65535, 0),
        (1, -65536, -1),
        (1, -65537, -1),
        (1, -131071, -1),
        (1, REACH - 65537, 32766),
        (1, REACH - 65536, 32767),
        (1, REACH, 32767),
        (1, -REACH + 1, -32767),
        (1, -REACH, -32768),
        (3, 3 * 65536 - 1, 0),
        (3, -3 * 65536, -1),
        (4096, 4096 * REACH, 32767),
        (4096, -4096 * REACH + 1, -32767),
        (4096, -4096 * REACH, -32768),
    ] {
        for place in PLACES {
            let mut expected = [0; SUM_WORDS];
            expected[place] = part;
            assert_eq!(
                written(&with_sum(count, place, sum)),
                expected,
                "{count} {sum}"
            );
        }
    }
}

#[test]
fn adding_goes_on_after_writing_and_from_kept_sums() {
    let (mut plain, mut kept) = (Covariance::new(), Covariance::new());
    for k in 0..10 {
        plain.add(mixed(k)).unwrap();
        kept.add(mixed(k)).unwrap();
        written(&kept);
        kept = Covariance::from_parts(kept.count(), *kept.words());
    }
    assert_eq!(kept, plain);
}

/// Below the safe calls: what the archive answers when it refuses to add.
#[test]
fn a_refused_add_answers_the_sums_as_they_were() {
    let snapshot = ffi::Snapshot { samples: mixed(1) };
    let words = std::array::from_fn(|n| REACH + n as i64);
    for count in [0, 1, 4096, 4097, u32::MAX] {
        let sums = ffi::Sums { count, words };
        // SAFETY: the call takes and answers values alone.
        let reply = unsafe { ffi::hubqr_add_snapshot(snapshot, sums) };
        assert_eq!((reply.number, reply.sums), (10, sums));
    }
}

#[test]
fn a_written_record_is_loaded_and_factored() {
    let mut covariance = Covariance::new();
    covariance.add(mixed(1)).unwrap();
    covariance.add(two_heard(256)).unwrap();
    let mut record = [0; MATRIX_RECORD_BYTES];
    covariance.write(&mut record).unwrap();
    let mut lent = Lent::new();
    let loaded = hubqr::load(&record, &mut lent.area).unwrap();
    assert_eq!((loaded.job, loaded.heard), (at(0, 0), 0xff));
    assert_eq!(lent.area[0], 8192 * i32::from(written(&covariance)[0]));
    let factored = hubqr::whole(&record, &mut lent.area, &mut lent.buffer).unwrap();
    assert_eq!((factored.heard, lent.buffer[0]), (0xff, KIND_RESULT));
    assert!(lent.tails_untouched());
}

/// The record of the sums is written, and Load and Whole answer this heard byte for it.
fn heard_in(covariance: &Covariance, heard: u8) {
    let mut record = [0; MATRIX_RECORD_BYTES];
    covariance.write(&mut record).unwrap();
    hears(&record, heard);
}

/// The record of these snapshots, likewise.
fn heard_in_all(snapshots: &[[Sample; ANTENNAS]], heard: u8) {
    let mut covariance = Covariance::new();
    for &snapshot in snapshots {
        covariance.add(snapshot).unwrap();
    }
    heard_in(&covariance, heard);
}

/// 256^2 + 1024^2 is 17 * 65,536 = 1,114,112, the mean square from which on an antenna is heard, and
/// 86^2 + 1052^2 = 1,114,100 is the largest sum of two squares below it.
#[test]
fn antennas_are_heard_by_the_mean_square_of_their_samples() {
    let (just_heard, just_not) = (sample(256, -1024), sample(-1052, 86));
    let (loud, quiet) = ([just_heard; ANTENNAS], [just_not; ANTENNAS]);
    heard_in_all(&[[Sample::default(); ANTENNAS]], 0);
    heard_in_all(&[quiet], 0);
    heard_in_all(&[loud], 0xff);
    heard_in_all(&[[sample(0, 1055); ANTENNAS]], 0);
    heard_in_all(&[[sample(-1056, 0); ANTENNAS]], 0xff);
    heard_in_all(&[loud, loud], 0xff);
    heard_in_all(&[loud, loud, quiet], 0);
    heard_in_all(&[loud, loud, quiet, [sample(0, 1056); ANTENNAS]], 0xff);
    for k in 0..ANTENNAS {
        let mut snapshot = quiet;
        snapshot[k] = just_heard;
        heard_in_all(&[snapshot], 1 << k);
    }
}

/// The edge to the unit. Sum 18 k is the real part of element (k, k), and the next one is imaginary.
#[test]
fn antennas_are_heard_by_their_real_sums_on_the_diagonal() {
    for count in [1, 3, SNAPSHOTS_MAX] {
        let edge = i64::from(HEARD_ABOVE + 1) * 65536 * i64::from(count);
        for k in 0..ANTENNAS {
            heard_in(&with_sum(count, 18 * k, edge), 1 << k);
            heard_in(&with_sum(count, 18 * k, edge - 1), 0);
            heard_in(&with_sum(count, 18 * k, -edge), 0);
            heard_in(&with_sum(count, 18 * k + 1, edge), 0);
        }
    }
}
