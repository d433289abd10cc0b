//! Other rules for the sums that a builder could take for the one of the specification. Where one of
//! them gives another answer, the comparison tells the two apart.

use reference::accuracy::{Differences, Errors, BOUND};
use reference::area::WorkArea;
use reference::matrix::{RealMatrix, ANTENNAS, REAL_SIZE};
use reference::verify::VerifyReply;

use crate::common::noticed::Noticed;
use crate::common::verify::Seen;
use crate::common::Case;
use crate::pair::{places, Family, Pair};

#[derive(Debug, Clone, Copy, PartialEq, Eq)]
pub enum Rule {
    /// The one of the specification.
    Stated,
    /// Sums are kept modulo 2 to this power.
    Modulo(u32),
    /// Those of one family are.
    ModuloIn(Family, u32),
    /// Sums stop at the ends of 64 bits.
    Saturating,
    /// Sums are 64-bit floats.
    Floats,
    /// One of the 16 products of each sum is left out.
    Without(Family, usize),
    /// The products of Q times R end with the column's own row of R.
    UpToTheColumn,
    /// Q stands where Q transposed is due.
    NotTransposed,
    /// Columns of Q stand where rows are due.
    ColumnsOfQ,
    /// Another power of two than 2^43 for a step of the input.
    Scale(u32),
    /// The input is transposed.
    InputTransposed,
    /// The imaginary parts at the upper right are not negated.
    NotNegated,
    /// 2^60 is due for every pair of rows.
    OneForEvery,
    /// 2^60 is due for none.
    OneForNone,
    /// Another power of two than 2^44 for the bound.
    Bound(Family, u32),
    /// Off by the bound is beyond it.
    Under(Family),
    /// It is above what is due, and not below.
    UnderAbove(Family),
    /// It is below what is due, and not above.
    UnderBelow(Family),
    /// Off by one more is within it.
    OneMore(Family),
    /// No sum is too large.
    OnlyBelow(Family),
    /// No sum is too small.
    OnlyAbove(Family),
    /// The other family is not looked at.
    Alone(Family),
    /// One pair is left out.
    Skips(Family, usize, usize),
    /// Two rows are left out in either order.
    SkipsBoth(usize, usize),
    /// Of rows each two are looked at once.
    Half,
    /// The columns of R are held to their bound, too.
    ColumnsToo,
}

/// What is handed over, with all sums of both families less what they should be.
struct Sums<'a> {
    pair: &'a Pair,
    input: RealMatrix,
    product: Differences,
    rows: Differences,
}

impl<'a> Sums<'a> {
    fn of(pair: &'a Pair) -> Self {
        Sums {
            pair,
            input: pair.matrix.to_real(),
            product: pair.differences(Family::Product),
            rows: pair.differences(Family::Rows),
        }
    }

    fn difference(&self, family: Family, i: usize, j: usize) -> i128 {
        match family {
            Family::Product => self.product[i][j],
            Family::Rows => self.rows[i][j],
        }
    }

    /// What a sum should be.
    fn due(&self, family: Family, i: usize, j: usize) -> i128 {
        match family {
            Family::Product => self.steps(i, j, 43),
            Family::Rows if i == j => 1 << 60,
            Family::Rows => 0,
        }
    }

    /// An entry of the input times a power of two.
    fn steps(&self, i: usize, j: usize, power: u32) -> i128 {
        i128::from(self.input[i][j]) << power
    }

    /// The words that product k of a sum is of.
    fn factors(&self, family: Family, i: usize, j: usize, k: usize) -> (i32, i32) {
        let area: &WorkArea = &self.pair.area;
        match family {
            Family::Product => (area.q(i, k), area.r(k, j)),
            Family::Rows => (area.q(i, k), area.q(j, k)),
        }
    }

    /// Product k of a sum.
    fn product(&self, family: Family, i: usize, j: usize, k: usize) -> i128 {
        let (a, b) = self.factors(family, i, j, k);
        i128::from(a) * i128::from(b)
    }

    /// The same with the words of Q and those of Q transposed changed over.
    fn product_transposed(&self, family: Family, i: usize, j: usize, k: usize) -> i128 {
        let area = &self.pair.area;
        let (a, b) = match family {
            Family::Product => (area.q(k, i), area.r(k, j)),
            Family::Rows => (area.q(k, i), area.q(k, j)),
        };
        i128::from(a) * i128::from(b)
    }
}

/// A number in two's complement of that many bits.
fn modulo(number: i128, bits: u32) -> i128 {
    number << (128 - bits) >> (128 - bits)
}

impl Rule {
    /// Those that give the same answer to every record. R has zeros under the diagonal, and two rows
    /// of Q have one sum in either order.
    ///
    /// As to 64 bits: where a row of Q is too long, the sum of its squares is beyond the bound,
    /// stopped or not. Where none is, sums of two rows are small, and 15 products of Q times R add up
    /// to less than 2^63, 16 to hardly more, since no word of R is beyond 2^31. Such a sum that is
    /// stopped, or that 2^64 cuts, is far from what it should be before and after.
    const SAME: [Rule; 5] = [
        Rule::Stated,
        Rule::UpToTheColumn,
        Rule::Half,
        Rule::Saturating,
        Rule::ModuloIn(Family::Product, 64),
    ];

    /// Those that right results tell apart: they say no.
    pub const OF_RIGHT_RESULTS: [Rule; 11] = [
        Rule::NotTransposed,
        Rule::Scale(42),
        Rule::Scale(44),
        Rule::InputTransposed,
        Rule::NotNegated,
        Rule::OneForEvery,
        Rule::OneForNone,
        Rule::Without(Family::Product, 0),
        Rule::Without(Family::Product, 15),
        Rule::Without(Family::Rows, 0),
        Rule::Without(Family::Rows, 15),
    ];

    /// Whether this rule says yes to R and Q that are accepted.
    fn says_yes(self, sums: &Sums) -> bool {
        let passes = |family| {
            let looked_at = places().filter(|(i, j)| !self.skips(family, *i, *j));
            let mut differences = looked_at.map(|(i, j)| self.difference(sums, family, i, j));
            differences.all(|difference| self.is_within(family, difference))
        };
        let columns = || Errors::of(&sums.input, &sums.pair.area).columns <= BOUND;
        Family::BOTH.into_iter().all(passes) && (self != Rule::ColumnsToo || columns())
    }

    fn skips(self, family: Family, i: usize, j: usize) -> bool {
        match self {
            Rule::Alone(of) => of != family,
            Rule::Skips(of, a, b) => of == family && (a, b) == (i, j),
            Rule::SkipsBoth(a, b) => family == Family::Rows && [(a, b), (b, a)].contains(&(i, j)),
            Rule::Half => family == Family::Rows && i > j,
            _ => false,
        }
    }

    fn is_within(self, family: Family, difference: i128) -> bool {
        let (low, high) = match self {
            Rule::Bound(of, power) if of == family => (-1 << power, 1 << power),
            Rule::Under(of) if of == family => (1 - BOUND, BOUND - 1),
            Rule::UnderAbove(of) if of == family => (-BOUND, BOUND - 1),
            Rule::UnderBelow(of) if of == family => (1 - BOUND, BOUND),
            Rule::OneMore(of) if of == family => (-BOUND - 1, BOUND + 1),
            Rule::OnlyBelow(of) if of == family => (-BOUND, i128::MAX),
            Rule::OnlyAbove(of) if of == family => (i128::MIN, BOUND),
            _ => (-BOUND, BOUND),
        };
        low <= difference && difference <= high
    }

    /// By how much a sum is off by this rule.
    fn difference(self, sums: &Sums, family: Family, i: usize, j: usize) -> i128 {
        let stated = sums.difference(family, i, j);
        let due = sums.due(family, i, j);
        match (self, family) {
            (Rule::Modulo(bits), _) => modulo(stated, bits),
            (Rule::ModuloIn(of, bits), _) if of == family => modulo(stated, bits),
            (Rule::Saturating, _) => saturating(sums, family, i, j) - due,
            (Rule::Floats, _) => (floats(sums, family, i, j) - due as f64) as i128,
            (Rule::Without(of, k), _) if of == family => stated - sums.product(family, i, j, k),
            (Rule::UpToTheColumn, Family::Product) => {
                (0..=j).map(|k| sums.product(family, i, j, k)).sum::<i128>() - due
            }
            (Rule::NotTransposed, _) | (Rule::ColumnsOfQ, Family::Rows) => {
                let products = (0..REAL_SIZE).map(|k| sums.product_transposed(family, i, j, k));
                products.sum::<i128>() - due
            }
            (Rule::Scale(power), Family::Product) => stated + due - sums.steps(i, j, power),
            (Rule::InputTransposed, Family::Product) => stated + due - sums.steps(j, i, 43),
            (Rule::NotNegated, Family::Product) if i < ANTENNAS && j >= ANTENNAS => {
                stated + 2 * due
            }
            (Rule::OneForEvery, Family::Rows) if i != j => stated - (1 << 60),
            (Rule::OneForNone, Family::Rows) => stated + due,
            _ => stated,
        }
    }
}

/// A sum that stops at the ends of 64 bits after each product.
fn saturating(sums: &Sums, family: Family, i: usize, j: usize) -> i128 {
    let factors = (0..REAL_SIZE).map(|k| sums.factors(family, i, j, k));
    let products = factors.map(|(a, b)| i64::from(a) * i64::from(b));
    products.fold(0, i64::saturating_add).into()
}

fn floats(sums: &Sums, family: Family, i: usize, j: usize) -> f64 {
    let factors = (0..REAL_SIZE).map(|k| sums.factors(family, i, j, k));
    factors.map(|(a, b)| f64::from(a) * f64::from(b)).sum()
}

/// The calls of a test, and in how many of them each other rule would give another answer.
pub struct Compared<const RULES: usize> {
    pub seen: Seen,
    noticed: Noticed<Rule, RULES>,
}

impl<const RULES: usize> Compared<RULES> {
    pub fn new(rules: [Rule; RULES]) -> Self {
        Compared {
            seen: Seen::default(),
            noticed: Noticed::none(rules),
        }
    }

    pub fn verify(
        &mut self,
        test: &'static str,
        seed: u64,
        number: u64,
        pair: &Pair,
    ) -> VerifyReply {
        let (matrix, result) = pair.records();
        let case = Case::new(test, seed, number, &matrix);
        let reply = self.seen.verify(&case, &matrix, &result);
        if reply.number == 0 {
            let sums = Sums::of(pair);
            for rule in Rule::SAME {
                let same = rule.says_yes(&sums) == reply.yes;
                assert!(same, "{rule:?} differs\n{case}, {:?}", pair.area);
            }
            self.noticed.look(|rule| rule.says_yes(&sums) != reply.yes);
        }
        reply
    }

    /// Prints what the calls came to. Every other rule has shown itself in one of them.
    pub fn print_and_require_all_rules(&self, test: &str) {
        self.seen.print(test);
        self.noticed.print_and_require_all_rules(test, "answers");
    }
}

/// Whether a rule says yes to R and Q that are accepted.
pub fn says_yes(rule: Rule, pair: &Pair) -> bool {
    rule.says_yes(&Sums::of(pair))
}
