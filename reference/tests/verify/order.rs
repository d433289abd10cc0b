//! Other rules for the tests and their order that a builder could take for those of the specification.

use reference::area::WorkArea;
use reference::matrix::{Complex, Matrix, ANTENNAS, REAL_SIZE};
use reference::records::{
    parse_matrix, parse_result, MATRIX_KIND, MATRIX_RECORD, RESULT_KIND, RESULT_RECORD,
};
use reference::verify::VerifyReply;

use crate::common::noticed::Noticed;

#[derive(Debug, Clone, Copy, PartialEq, Eq)]
pub enum Rule {
    /// Those of the specification.
    Stated,
    /// The result's 8 comes before the matrix's 4.
    EightBeforeFour,
    /// All tests of the result come before those of the matrix.
    ResultFirst,
    /// Both records are tested for 1, and then for 2.
    KindsFirst,
    /// 4 comes after the result's 2.
    FourAfterTwo,
    /// 2 comes before 1.
    LengthFirst,
    /// The result is taken for the matrix, and the matrix for the result.
    ChangedOver,
    /// What follows a whole record is not looked at.
    RestIgnored,
    /// 4 only where all elements are zero.
    AnythingHeard,
    /// An antenna is heard at 16.
    HeardAt16,
    /// An antenna is heard above 17.
    HeardAbove17,
    /// 4 where one antenna is not heard.
    AllHeard,
    /// Elements off the diagonal count, too.
    OthersHeard,
    /// Imaginary parts on the diagonal count, too.
    ImaginaryHeard,
    /// 4 is not tested.
    NoneMayBeHeard,
    /// None of the 16 diagonal words may be negative.
    LastDiagonalToo,
    /// No diagonal word may be 0.
    ZeroRefused,
    /// The signs on the diagonal are not tested.
    SignsNotTested,
    /// The words under the diagonal are not tested.
    UnderNotTested,
    /// A refusal is a no.
    RefusalIsNo,
    /// A refusal says yes.
    RefusalSaysYes,
    /// A no is a refusal.
    NoIsRefusal,
}

/// The tests by name.
#[derive(Debug, Clone, Copy, PartialEq, Eq)]
enum Test {
    MatrixKind,
    MatrixLength,
    Heard,
    ResultKind,
    ResultLength,
    Triangle,
}

use Test::{Heard, MatrixKind, MatrixLength, ResultKind, ResultLength, Triangle};

impl Test {
    fn number(self) -> u8 {
        match self {
            MatrixKind | ResultKind => 1,
            MatrixLength | ResultLength => 2,
            Heard => 4,
            Triangle => 8,
        }
    }
}

impl Rule {
    pub const OTHERS: [Rule; 21] = [
        Rule::EightBeforeFour,
        Rule::ResultFirst,
        Rule::KindsFirst,
        Rule::FourAfterTwo,
        Rule::LengthFirst,
        Rule::ChangedOver,
        Rule::RestIgnored,
        Rule::AnythingHeard,
        Rule::HeardAt16,
        Rule::HeardAbove17,
        Rule::AllHeard,
        Rule::OthersHeard,
        Rule::ImaginaryHeard,
        Rule::NoneMayBeHeard,
        Rule::LastDiagonalToo,
        Rule::ZeroRefused,
        Rule::SignsNotTested,
        Rule::UnderNotTested,
        Rule::RefusalIsNo,
        Rule::RefusalSaysYes,
        Rule::NoIsRefusal,
    ];

    fn order(self) -> [Test; 6] {
        let [a, b, c] = [MatrixKind, MatrixLength, Heard];
        let [d, e, f] = [ResultKind, ResultLength, Triangle];
        match self {
            Rule::EightBeforeFour => [a, b, d, e, f, c],
            Rule::ResultFirst => [d, e, f, a, b, c],
            Rule::KindsFirst => [a, d, b, e, c, f],
            Rule::FourAfterTwo => [a, b, d, e, c, f],
            Rule::LengthFirst => [b, a, c, e, d, f],
            _ => [a, b, c, d, e, f],
        }
    }

    /// Whether records fail a test by this rule. What is read of a record is tested where its kind and
    /// its length are right.
    fn fails(self, test: Test, matrix: &[u8], result: &[u8]) -> bool {
        match test {
            MatrixKind => matrix.first() != Some(&MATRIX_KIND),
            ResultKind => result.first() != Some(&RESULT_KIND),
            MatrixLength => !self.is_length(matrix.len(), MATRIX_RECORD),
            ResultLength => !self.is_length(result.len(), RESULT_RECORD),
            Heard => parse_matrix(matrix).is_ok_and(|matrix| !self.is_heard(&matrix)),
            Triangle => parse_result(result).is_ok_and(|area| !self.is_triangle(&area)),
        }
    }

    fn is_length(self, length: usize, due: usize) -> bool {
        length == due || self == Rule::RestIgnored && length > due
    }

    fn is_heard(self, matrix: &Matrix) -> bool {
        let diagonal = || (0..ANTENNAS).map(|k| matrix.element(k, k));
        let all = || (0..64).map(|k| matrix.element(k / ANTENNAS, k % ANTENNAS));
        match self {
            Rule::AnythingHeard => all().any(|element| element != Complex::ZERO),
            Rule::HeardAt16 => diagonal().any(|element| element.re >= 16),
            Rule::HeardAbove17 => diagonal().any(|element| element.re > 17),
            Rule::AllHeard => diagonal().all(|element| element.re > 16),
            Rule::OthersHeard => all().any(|element| element.re > 16),
            Rule::ImaginaryHeard => diagonal().any(|element| element.re.max(element.im) > 16),
            Rule::NoneMayBeHeard => true,
            _ => diagonal().any(|element| element.re > 16),
        }
    }

    fn is_triangle(self, area: &WorkArea) -> bool {
        let mut under = (0..REAL_SIZE).flat_map(|i| (0..i).map(move |j| area.r(i, j)));
        let mut diagonal = (0..REAL_SIZE).map(|i| area.r(i, i));
        let clear = self == Rule::UnderNotTested || under.all(|word| word == 0);
        clear
            && match self {
                Rule::LastDiagonalToo => diagonal.all(|word| word >= 0),
                Rule::ZeroRefused => diagonal.all(|word| word != 0),
                Rule::SignsNotTested => true,
                _ => diagonal.take(REAL_SIZE - 1).all(|word| word >= 0),
            }
    }

    fn number(self, matrix: &[u8], result: &[u8]) -> u8 {
        let (matrix, result) = match self {
            Rule::ChangedOver => (result, matrix),
            _ => (matrix, result),
        };
        let mut order = self.order().into_iter();
        let failing = order.find(|test| self.fails(*test, matrix, result));
        failing.map_or(0, Test::number)
    }

    /// Whether records are answered something else by this rule. Where it accepts what is to be
    /// refused, any answer is another one.
    fn differs(self, matrix: &[u8], result: &[u8], stated: VerifyReply) -> bool {
        match (self, stated) {
            (Rule::RefusalIsNo | Rule::RefusalSaysYes, _) => stated.number != 0,
            (Rule::NoIsRefusal, _) => stated.number == 0 && !stated.yes,
            _ => self.number(matrix, result) != stated.number,
        }
    }
}

/// In how many calls each other rule would have given another answer.
pub struct OtherAnswers(Noticed<Rule, { Rule::OTHERS.len() }>);

impl OtherAnswers {
    pub const NONE: OtherAnswers = OtherAnswers(Noticed::none(Rule::OTHERS));

    pub fn look(&mut self, matrix: &[u8], result: &[u8], stated: VerifyReply) {
        assert!(!Rule::Stated.differs(matrix, result, stated));
        self.0.look(|rule| rule.differs(matrix, result, stated));
    }

    pub fn print_and_require_all_rules(&self, test: &str) {
        self.0.print_and_require_all_rules(test, "answers");
    }
}
