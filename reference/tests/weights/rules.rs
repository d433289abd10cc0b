//! Other rules that a builder could take for the one of the specification. Where one of them gives
//! other bits, the comparison tells the two apart.

use reference::area::WorkArea;
use reference::matrix::{ANTENNAS, REAL_SIZE};
use reference::records::{parse_result, write_result};
use reference::weights::WeightsReply;

use crate::common::noticed::Noticed;
use crate::common::triangle::triangle;
use crate::common::weights::{bits, Seen, Targets, NO_TARGET};
use crate::common::Case;

#[derive(Debug, Clone, Copy)]
enum Rule {
    /// The one of the specification.
    Stated,
    /// The products of a right-hand sum are divided and then added up, as floats. No bit differs:
    /// each partial sum is a multiple of 2^-17 and at most 2^33, so none is rounded.
    QuotientsAdded,
    /// Each product is taken off without being rounded.
    Fused,
    /// The products are taken off from column 15 on.
    FallingColumns,
    /// The right-hand side and the words of a row are divided by its diagonal first.
    DividedFirst,
    /// The products are added up and taken off at once.
    AddedFirst,
    /// The diagonal's reciprocal is multiplied by.
    Reciprocal,
    /// Q stands where Q transposed is due.
    NotTransposed,
    /// Real and imaginary parts of the targets alternate.
    Alternating,
    /// The right-hand sum is divided as a whole number.
    WholeQuotient,
}

impl Rule {
    const SAME: [Rule; 2] = [Rule::Stated, Rule::QuotientsAdded];

    const OTHERS: [Rule; 8] = [
        Rule::Fused,
        Rule::FallingColumns,
        Rule::DividedFirst,
        Rule::AddedFirst,
        Rule::Reciprocal,
        Rule::NotTransposed,
        Rule::Alternating,
        Rule::WholeQuotient,
    ];

    /// The reply to an accepted record by this rule.
    fn reply(self, area: &WorkArea, targets: &Targets) -> WeightsReply {
        let target = self.target(targets);
        let mut x = [0.0; REAL_SIZE];
        for i in (0..REAL_SIZE).rev() {
            x[i] = self.component(area, i, self.right(area, i, &target), &x);
        }
        WeightsReply {
            number: 0,
            weights: std::array::from_fn(|k| (x[k], x[k + ANTENNAS])),
        }
    }

    fn target(self, targets: &Targets) -> [i64; REAL_SIZE] {
        std::array::from_fn(|j| {
            let (at, real) = match self {
                Rule::Alternating => (j / 2, j % 2 == 0),
                _ => (j % ANTENNAS, j < ANTENNAS),
            };
            let (re, im) = targets[at];
            (if real { re } else { im }).into()
        })
    }

    fn right(self, area: &WorkArea, i: usize, target: &[i64; REAL_SIZE]) -> f64 {
        let word = |j| match self {
            Rule::NotTransposed => area.q(i, j),
            _ => area.q(j, i),
        };
        let products = (0..REAL_SIZE).map(|j| i64::from(word(j)) * target[j]);
        match self {
            Rule::WholeQuotient => (products.sum::<i64>() / 131_072) as f64,
            Rule::QuotientsAdded => products.map(|product| product as f64 / 131_072.0).sum(),
            _ => products.sum::<i64>() as f64 / 131_072.0,
        }
    }

    fn component(self, area: &WorkArea, i: usize, right: f64, x: &[f64; REAL_SIZE]) -> f64 {
        let diagonal = f64::from(area.r(i, i));
        let factors = (i + 1..REAL_SIZE).map(|j| (f64::from(area.r(i, j)), x[j]));
        let take_off = |rest: f64, (word, x): (f64, f64)| rest - word * x;
        match self {
            Rule::Fused => {
                factors.fold(right, |rest, (word, x)| (-word).mul_add(x, rest)) / diagonal
            }
            Rule::FallingColumns => factors.rev().fold(right, take_off) / diagonal,
            Rule::DividedFirst => factors
                .map(|(word, x)| (word / diagonal, x))
                .fold(right / diagonal, take_off),
            Rule::AddedFirst => (right - factors.map(|(word, x)| word * x).sum::<f64>()) / diagonal,
            Rule::Reciprocal => factors.fold(right, take_off) * (1.0 / diagonal),
            _ => factors.fold(right, take_off) / diagonal,
        }
    }
}

/// The calls of a test, and in how many of them each other rule would give other bits.
pub struct Compared {
    pub seen: Seen,
    noticed: Noticed<Rule, { Rule::OTHERS.len() }>,
}

impl Compared {
    pub const NONE: Compared = Compared {
        seen: Seen::NONE,
        noticed: Noticed::none(Rule::OTHERS),
    };

    pub fn weights(&mut self, case: &Case, record: &[u8], targets: &Targets) -> WeightsReply {
        let reply = self.seen.weights(case, record, targets);
        if reply.number != 0 {
            return reply;
        }
        let area = parse_result(record).expect("both sides accepted it");
        let differs = |rule: Rule| bits(&rule.reply(&area, targets)) != bits(&reply);
        for rule in Rule::SAME {
            assert!(!differs(rule), "{rule:?} differs\n{case}, {targets:?}");
        }
        self.noticed.look(differs);
        reply
    }

    /// Prints what the calls came to. Every other rule has shown itself in one of them.
    pub fn print_and_require_all_rules(&self, test: &str) {
        self.seen.print(test);
        self.noticed.print_and_require_all_rules(test, "bits");
    }
}

/// x14 is 2^27 and x15 is 2^27 + 1. Row 13 takes off -2^27 times 2^27, which leaves 2^54, and then
/// (2^27 - 1) times (2^27 + 1). That is 2^54 - 1, which rounds to 2^54: 0 is left, and fused 1.
#[test]
fn a_record_where_a_fused_product_gives_another_weight() {
    let mut area = triangle(|| 0, |_| 1);
    area.set_word(13, 14, -134_217_728);
    area.set_word(13, 15, 134_217_727);
    area.set_word(14, 16, 1_073_741_824);
    area.set_word(15, 16, 1_073_741_832);
    let mut targets = NO_TARGET;
    targets[0] = (16_384, 0);
    let fused = Rule::Fused.reply(&area, &targets);

    let record = write_result(&area);
    let case = Case::new("fused", 0, 0, &record);
    let mut seen = Seen::NONE;
    let reply = seen.weights(&case, &record, &targets);
    let imaginary = |reply: &WeightsReply| [5, 6, 7].map(|k| reply.weights[k].1);
    assert_eq!(imaginary(&reply), [0.0, 134_217_728.0, 134_217_729.0]);
    assert_eq!(imaginary(&fused), [1.0, 134_217_728.0, 134_217_729.0]);
}
