//! A sum of products of two rows of Q that is off by the bound or one more, alone.

use reference::matrix::REAL_SIZE;

use super::Off;
use crate::pair::Pair;

/// Every amount can be reached exactly at every pair. Rows i and j have their sum in either order, so
/// that the pairs (i, j) and (j, i) are off together.
pub fn pair(i: usize, j: usize, off: Off) -> Pair {
    if i == j {
        row_with_itself(i, off)
    } else {
        two_rows(i, j, off)
    }
}

/// The other columns, from the one behind column i on.
fn others(i: usize) -> impl Iterator<Item = usize> {
    (1..REAL_SIZE).map(move |step| (i + step) % REAL_SIZE)
}

/// A word of 2^14 meets the 2^30 of the other row, and the one more is 1 times 1 in a third column.
fn two_rows(i: usize, j: usize, off: Off) -> Pair {
    let mut pair = Pair::diagonal(|_| 100);
    pair.set_q(i, j, off.sign << 14);
    if off.beyond {
        let third = others(i).find(|&k| k != j).expect("there are 16 columns");
        pair.set_q(i, third, 1);
        pair.set_q(j, third, off.sign);
    }
    pair
}

/// The squares of the row's words have to add up to 2^60 and the amount: each word is the largest for
/// which there is room. The words in the rows that they lean toward keep those at right angles.
fn row_with_itself(i: usize, off: Off) -> Pair {
    let mut pair = Pair::diagonal(|_| 100);
    let mut room = (1 << 60) + off.amount();
    let mut next = || {
        let word = room.isqrt();
        room -= word * word;
        word as i32
    };
    pair.set_q(i, i, next());
    for k in others(i) {
        let word = next();
        pair.set_q(i, k, word);
        pair.set_q(k, i, -word);
    }
    assert_eq!(room, 0, "15 more squares were too few");
    pair
}
