//! Each of the 256 sums for Q times R and of the 256 for the rows of Q: 2^44 away it gets yes, and one
//! more gets no, in either direction. All other sums are within their limits.
use super::case::{other_antenna, places, Case, SIZE};
use hubqr::{ANTENNAS, Q_ONE};

/// A word of Q's row that makes its product with another row of 2^30 as large as is allowed.
const LARGEST: i32 = 1 << 14;

/// The sum that a limit is for is as far away as it may be, this way, and with one more beyond that.
type Limit = fn(place: (usize, usize), way: i32, beyond: bool) -> Case;

fn met_and_passed(limit: Limit, place: (usize, usize)) {
    for way in [1, -1] {
        let (met, passed) = (limit(place, way, false), limit(place, way, true));
        assert_eq!(met.verdict(), Ok(true), "{place:?} {way}");
        assert_eq!(passed.verdict(), Ok(false), "{place:?} {way}");
    }
}

/// The sum is 0, and 2^44 from an entry of 2 or -2. A word of R times one of Q, both 1 or -1, is the one
/// that goes beyond.
fn product((i, j): (usize, usize), way: i32, beyond: bool) -> Case {
    let mut case = Case::heard_at(other_antenna(&[i, j]));
    case.set_entry(i, j, -2 * way as i16);
    if beyond {
        let k = if i == j { 0 } else { j };
        case.q[i][k] = way;
        case.r[k][j] = 1;
    }
    case
}

/// With Q one, entry (i, j) is word (i, j) of R times 2^30.
fn word_of_r((i, j): (usize, usize), way: i32, beyond: bool) -> Case {
    let mut case = Case::heard_at(i % ANTENNAS);
    case.r[i][j] += way * (LARGEST + i32::from(beyond));
    case
}

/// Entry (0, 0) of Q times R is one product, of 2^44 + 1 more than the entry or less. Its factors are
/// 2^45 + 1 = (2^30 - 2^15 + 1) (2^15 + 1), and 2^43 - 1 = 905040953 * 9719. What Q's row lacks to 2^30
/// it has in column 8, so that element (0, 0) is turned by an angle.
fn first_product(way: i32, beyond: bool) -> Case {
    let (element, q, turned, r) = match way {
        1 => ((2, 0), 1_073_709_057, 8_388_416, 32_769),
        _ => ((3, 1), 905_040_953, 577_773_639, 9_719),
    };
    let mut case = Case::heard_at(1);
    case.set_entry(0, 0, element.0);
    case.set_entry(ANTENNAS, 0, element.1);
    (case.q[0][0], case.q[ANTENNAS][ANTENNAS]) = (q, q);
    (case.q[ANTENNAS][0], case.q[0][ANTENNAS]) = (turned, -turned);
    (case.r[0][0], case.r[ANTENNAS][ANTENNAS]) = (r - way, r - way);
    if beyond {
        case.r[0][0] = r;
    }
    case
}

/// Row i has 2^14 or its negative where row j has 2^30. A third column has the one that goes beyond.
fn two_rows((i, j): (usize, usize), way: i32, beyond: bool) -> Case {
    let mut case = Case::heard_at(other_antenna(&[i, j]));
    case.q[i][j] = way * LARGEST;
    if beyond {
        let k = (0..SIZE).find(|&k| k != i && k != j).unwrap();
        (case.q[i][k], case.q[j][k]) = (way, 1);
    }
    case
}

/// Row i has nearly 2^30 on the diagonal, and what lacks in squares elsewhere, each of at most 2^28.
fn row_with_itself((i, _): (usize, usize), way: i32, beyond: bool) -> Case {
    let mut case = Case::heard_at(other_antenna(&[i]));
    let diagonal = Q_ONE + way * (1 << 13) - 1;
    let sum = (1 << 60) + i64::from(way) * ((1 << 44) + i64::from(beyond));
    let mut rest = sum - i64::from(diagonal).pow(2);
    for k in (0..SIZE).filter(|&k| k != i) {
        let word = rest.isqrt().min(LARGEST.into());
        rest -= word.pow(2);
        case.q[i][k] = word as i32;
    }
    assert_eq!(rest, 0);
    case.q[i][i] = diagonal;
    case
}

#[test]
fn each_entry_of_q_times_r_has_its_limit() {
    for place in places().filter(|&place| place != (0, 0)) {
        met_and_passed(product, place);
    }
    for way in [1, -1] {
        assert_eq!(product((0, 0), way, false).verdict(), Ok(true));
        assert_eq!(first_product(way, false).verdict(), Ok(true));
        assert_eq!(first_product(way, true).verdict(), Ok(false));
    }
}

/// By one in a word of R, which is 2^30 in the sum.
#[test]
fn each_word_of_r_has_its_limit() {
    for place in places().filter(|(i, j)| i <= j) {
        met_and_passed(word_of_r, place);
    }
}

#[test]
fn each_two_rows_of_q_have_their_limit() {
    for place in places() {
        let limit = if place.0 == place.1 {
            row_with_itself
        } else {
            two_rows
        };
        met_and_passed(limit, place);
    }
}
