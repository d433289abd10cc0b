//! Lists of snapshots, added up from none and written at many points.

use reference::covariance::{Exact, Snapshot, MOST_SNAPSHOTS};
use reference::matrix::{Complex, ANTENNAS};
use reference::random::Random;
use reference::records::parse_matrix;

use crate::common::snapshots::Snapshots;
use crate::common::sums::{BothSums, Seen};
use crate::common::Case;

const LENGTHS: [u32; 8] = [1, 2, 3, 17, 4_095, 4_096, 4_097, 4_100];

/// Snapshots of the lists of one kind that are added, and those that come after 4,096.
const ADDED: u64 = 16_406;
const TOO_MANY: u64 = 5;

#[test]
fn lists_of_snapshots_add_up_alike() {
    for (kind, seed) in Snapshots::ALL.into_iter().zip(701..) {
        let mut seen = Seen::default();
        for (length, number) in LENGTHS.into_iter().zip(0..) {
            let case = Case::of_words("lists", seed, number);
            add_list(kind, length, case, &mut seen);
        }
        seen.print(&format!("Lists of snapshots, {kind:?}"));
        assert_eq!((seen.snapshots, seen.refusals[&10]), (ADDED, TOO_MANY));
        assert!(seen.records >= 1_500, "few records were written");
    }
}

fn add_list(kind: Snapshots, length: u32, case: Case, seen: &mut Seen) {
    let mut random = case.random();
    let mut both = BothSums::none(case, seen);
    let number = both.write(257);
    both.require(number == 9, "a record of no snapshot");
    for place in 0..length {
        let number = both.add(&kind.draw(&mut random));
        let expected = if place < MOST_SNAPSHOTS { 0 } else { 10 };
        both.require(number == expected, "4,096 snapshots are the most");
        require_hermitian_sums(&both);
        if !(20..4_090).contains(&place) || random.one_in(10) {
            write_somewhere(&mut both, &mut random);
            require_hermitian_record(&both);
        }
    }
}

/// Writes to a buffer that is too short, and to one that is not.
fn write_somewhere(both: &mut BothSums, random: &mut Random) {
    let number = both.write(random.choose(&[0, 1, 256]));
    both.require(number == 7, "a buffer that is too short was written to");
    let number = both.write(random.choose(&[257, 258, 300]));
    both.require(number == 0, "sums added up from none were not written");
}

/// In exact numbers: sum (j, i) is the conjugate of sum (i, j), and a sum on the diagonal is real
/// and not negative.
fn require_hermitian_sums(both: &BothSums) {
    for i in 0..ANTENNAS {
        for j in 0..ANTENNAS {
            let (sum, mirrored) = (both.sums().sum(i, j), both.sums().sum(j, i));
            both.require(mirrored == sum.conjugate(), "a sum has no conjugate");
        }
        let Exact { re, im } = both.sums().sum(i, i);
        both.require(re >= 0 && im == 0, "a sum of squares is not one");
    }
}

/// The same of the elements of the record that was written last.
fn require_hermitian_record(both: &BothSums) {
    let matrix = parse_matrix(both.record()).expect("a matrix record was written");
    for i in 0..ANTENNAS {
        for j in 0..ANTENNAS {
            let (element, mirrored) = (matrix.element(i, j), matrix.element(j, i));
            let conjugate = (element.re, -i32::from(element.im));
            let same = (mirrored.re, i32::from(mirrored.im)) == conjugate;
            both.require(same, "an element has no conjugate");
        }
        let Complex { re, im } = matrix.element(i, i);
        both.require(re >= 0 && im == 0, "a mean of squares is not one");
    }
}

/// The elements of the record of a list, after both sides agreed on it.
fn elements(list: &[Snapshot]) -> [[(i16, i16); ANTENNAS]; ANTENNAS] {
    let mut seen = Seen::default();
    let mut both = BothSums::none(Case::of_words("by hand", 708, 0), &mut seen);
    for snapshot in list {
        assert_eq!(both.add(snapshot), 0);
    }
    assert_eq!(both.write(257), 0);
    let matrix = parse_matrix(both.record()).expect("a matrix record was written");
    std::array::from_fn(|i| {
        std::array::from_fn(|j| {
            let element = matrix.element(i, j);
            (element.re, element.im)
        })
    })
}

/// 256 times 256 is 65,536, so that these are easily worked by hand.
#[test]
fn values_worked_by_hand() {
    let real: Snapshot = std::array::from_fn(|k| Complex::new(256 * (k as i16 + 1), 0));
    let products =
        std::array::from_fn(|i| std::array::from_fn(|j| ((i as i16 + 1) * (j as i16 + 1), 0)));
    assert_eq!(elements(&[real]), products);
    let imaginary = real.map(|sample| Complex::new(0, -sample.re));
    assert_eq!(elements(&[real, imaginary, real]), products);

    let mut turned = [Complex::ZERO; ANTENNAS];
    (turned[2], turned[5]) = (Complex::new(256, 0), Complex::new(0, 512));
    let pair = elements(&[turned]);
    assert_eq!((pair[2][2], pair[5][5]), ((1, 0), (4, 0)));
    assert_eq!((pair[2][5], pair[5][2]), ((0, -2), (0, 2)));
    let mean = elements(&[turned, [Complex::ZERO; ANTENNAS]]);
    assert_eq!((mean[2][2], mean[5][5]), ((0, 0), (2, 0)));
    assert_eq!((mean[2][5], mean[5][2]), ((0, -1), (0, 1)));

    let lowest = [Complex::new(-32768, -32768); ANTENNAS];
    let clamped = [[(32767, 0); ANTENNAS]; ANTENNAS];
    assert_eq!(elements(&[lowest; 3]), clamped);
}
