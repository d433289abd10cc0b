//! Each bound met exactly and passed by one, above and below, at each of the 256 pairs of both
//! families.

mod product;
mod rows;

use reference::accuracy::BOUND;

use crate::pair::{places, Family, Pair};
use crate::rules::{says_yes, Compared, Rule};

const TEST: &str = "bounds";

/// Those that a sum at its bound, or just beyond it, tells apart.
const RULES: [Rule; 25] = [
    Rule::Floats,
    Rule::ColumnsOfQ,
    Rule::Bound(Family::Product, 43),
    Rule::Bound(Family::Product, 45),
    Rule::Bound(Family::Rows, 43),
    Rule::Bound(Family::Rows, 45),
    Rule::Under(Family::Product),
    Rule::Under(Family::Rows),
    Rule::UnderAbove(Family::Product),
    Rule::UnderAbove(Family::Rows),
    Rule::UnderBelow(Family::Product),
    Rule::UnderBelow(Family::Rows),
    Rule::OneMore(Family::Product),
    Rule::OneMore(Family::Rows),
    Rule::OnlyBelow(Family::Product),
    Rule::OnlyBelow(Family::Rows),
    Rule::OnlyAbove(Family::Product),
    Rule::OnlyAbove(Family::Rows),
    Rule::Alone(Family::Product),
    Rule::Alone(Family::Rows),
    Rule::Skips(Family::Product, 15, 15),
    Rule::Skips(Family::Rows, 15, 15),
    Rule::SkipsBoth(14, 15),
    Rule::Without(Family::Product, 0),
    Rule::Without(Family::Rows, 0),
];

/// By how much one sum is to be off: the bound, or one more, above or below.
#[derive(Debug, Clone, Copy)]
struct Off {
    /// 1 above what the sum should be, -1 below.
    sign: i32,
    beyond: bool,
}

impl Off {
    const ALL: [Off; 4] = [
        Off::new(1, false),
        Off::new(-1, false),
        Off::new(1, true),
        Off::new(-1, true),
    ];

    const fn new(sign: i32, beyond: bool) -> Self {
        Off { sign, beyond }
    }

    fn amount(self) -> i128 {
        i128::from(self.sign) * (BOUND + i128::from(self.beyond))
    }
}

fn pair_with(family: Family, i: usize, j: usize, off: Off) -> Pair {
    match family {
        Family::Product => product::pair(i, j, off),
        Family::Rows => rows::pair(i, j, off),
    }
}

/// The pairs of a family that share one sum.
fn sharing(family: Family, i: usize, j: usize) -> Vec<(usize, usize)> {
    match family {
        Family::Rows if i != j => vec![(i, j), (j, i)],
        _ => vec![(i, j)],
    }
}

/// Fails the test unless this sum is off by the amount, and every other one by less than the bound.
fn require_alone(pair: &Pair, family: Family, i: usize, j: usize, off: Off) {
    let shared = sharing(family, i, j);
    for of in Family::BOTH {
        let differences = pair.differences(of);
        for (a, b) in places() {
            let difference = differences[a][b];
            let right = match of == family && shared.contains(&(a, b)) {
                true => difference == off.amount(),
                false => difference.abs() < BOUND,
            };
            let due = || format!("{family:?} ({i}, {j}) off by {off:?}");
            assert!(right, "{}: {of:?} ({a}, {b}) is by {difference}", due());
        }
    }
}

/// Fails the test unless a rule that leaves this pair out says yes. Two rows of Q have the same sum in
/// either order, so that they are seen to be left out where both orders are, and one of them alone
/// changes no answer.
fn require_noticed_where_skipped(pair: &Pair, family: Family, i: usize, j: usize) {
    let alone = says_yes(Rule::Skips(family, i, j), pair);
    let shared = sharing(family, i, j).len() > 1;
    assert_eq!(alone, !shared, "{family:?} ({i}, {j}) left out");
    let both = !shared || says_yes(Rule::SkipsBoth(i, j), pair);
    assert!(both, "rows {i} and {j} left out");
}

#[test]
fn each_sum_at_its_bound_gets_yes_and_one_beyond_gets_no() {
    let mut compared = Compared::new(RULES);
    let mut number = 0;
    for family in Family::BOTH {
        for (i, j) in places() {
            for off in Off::ALL {
                let pair = pair_with(family, i, j, off);
                require_alone(&pair, family, i, j, off);
                let reply = compared.verify(TEST, 0, number, &pair);
                let due = (0, !off.beyond);
                let answered = (reply.number, reply.yes);
                assert_eq!(answered, due, "{family:?} ({i}, {j}) {off:?}");
                if off.beyond {
                    require_noticed_where_skipped(&pair, family, i, j);
                }
                number += 1;
            }
        }
    }
    compared.print_and_require_all_rules("Each sum at its bound and one beyond");
    assert_eq!((compared.seen.yes, compared.seen.no), (1024, 1024));
}
