//! Other rules that a builder could take for those of the specification. Where one of them gives
//! another page, the comparison tells the two apart.

use reference::matrix::REAL_SIZE;
use reference::page::{page, PageSample};
use reference::records::RESULT_RECORD;

use super::inputs::{q_words, r_words};
use super::reading::read;
use crate::noticed::Noticed;

#[derive(Debug, Clone, Copy, PartialEq, Eq)]
enum Rule {
    /// Those of the specification.
    Stated,
    /// A number has 11 columns.
    Columns11,
    /// A number has 13 columns.
    Columns13,
    /// The minus stands at the left edge of the columns.
    MinusAtTheEdge,
    /// A number begins at the left edge of the columns.
    LeftAligned,
    /// Zeros stand in front instead of blanks.
    ZerosInFront,
    /// A blank follows the last word of a line.
    BlankBehind,
    /// The last line has no line feed.
    NoLastLineFeed,
    /// The lowest word has the digits of the highest.
    DigitsOfTheHighest,
    /// A number above or at 0 has a plus.
    PlusSigns,
    /// A word has no more than 10 characters.
    TenCharacters,
    /// 0 is left blank.
    BlankForZero,
    /// No word is negative.
    Unsigned,
    /// A word's low byte comes first.
    LowByteFirst,
    /// R stands column by column.
    ColumnByColumn,
    /// Q stands where R is due.
    QForR,
    /// The number of a refusal stands without columns.
    NumberAlone,
    /// A refusal is a refusal record, as that of `qr` is.
    RefusalRecord,
    /// 2 comes before 1.
    LengthFirst,
    /// What follows a whole record is not looked at.
    RestIgnored,
    /// R may be that of an unfinished result.
    Unfinished,
    /// None of the 16 diagonal words may be negative.
    LastDiagonalToo,
}

impl Rule {
    const OTHERS: [Rule; 21] = [
        Rule::Columns11,
        Rule::Columns13,
        Rule::MinusAtTheEdge,
        Rule::LeftAligned,
        Rule::ZerosInFront,
        Rule::BlankBehind,
        Rule::NoLastLineFeed,
        Rule::DigitsOfTheHighest,
        Rule::PlusSigns,
        Rule::TenCharacters,
        Rule::BlankForZero,
        Rule::Unsigned,
        Rule::LowByteFirst,
        Rule::ColumnByColumn,
        Rule::QForR,
        Rule::NumberAlone,
        Rule::RefusalRecord,
        Rule::LengthFirst,
        Rule::RestIgnored,
        Rule::Unfinished,
        Rule::LastDiagonalToo,
    ];

    /// The page of an input by this rule.
    fn page(self, input: &[u8]) -> Vec<u8> {
        match (self.number(input), self) {
            (0, _) => self.lines(&self.words(input)),
            (number, Rule::NumberAlone) => format!("{number}\n").into(),
            (number, Rule::RefusalRecord) => vec![3, number as u8],
            (number, _) => self.lines(&[number]),
        }
    }

    fn number(self, input: &[u8]) -> i32 {
        match (self, stated_number(input)) {
            (Rule::LengthFirst, 1) if input.len() != RESULT_RECORD => 2,
            (Rule::RestIgnored, 2) if input.len() > RESULT_RECORD => {
                stated_number(&input[..RESULT_RECORD])
            }
            (Rule::Unfinished, 8) => 0,
            (Rule::LastDiagonalToo, 0) if r_words(input).last() < Some(&0) => 8,
            (_, stated) => stated,
        }
    }

    fn words(self, input: &[u8]) -> Vec<i32> {
        let r = r_words(input);
        match self {
            Rule::LowByteFirst => r.into_iter().map(i32::swap_bytes).collect(),
            Rule::ColumnByColumn => {
                let places = (0..r.len()).map(|k| (k % REAL_SIZE, k / REAL_SIZE));
                places.map(|(i, j)| r[REAL_SIZE * i + j]).collect()
            }
            Rule::QForR => q_words(input),
            _ => r,
        }
    }

    fn lines(self, words: &[i32]) -> Vec<u8> {
        let mut lines = String::new();
        for words in words.chunks(REAL_SIZE) {
            lines.extend(words.iter().map(|&word| self.columns(word)));
            lines.extend((self == Rule::BlankBehind).then_some(' '));
            lines.push('\n');
        }
        if self == Rule::NoLastLineFeed {
            lines.pop();
        }
        lines.into()
    }

    fn columns(self, word: i32) -> String {
        let (size, sign) = (word.unsigned_abs(), if word < 0 { "-" } else { "" });
        match self {
            Rule::Columns11 => format!("{word:>11}"),
            Rule::Columns13 => format!("{word:>13}"),
            Rule::MinusAtTheEdge => format!("{sign}{size:>0$}", 12 - sign.len()),
            Rule::LeftAligned => format!("{word:<12}"),
            Rule::ZerosInFront => format!("{word:012}"),
            Rule::DigitsOfTheHighest => format!("{:>12}", word.max(-i32::MAX)),
            Rule::PlusSigns => format!("{word:>+12}"),
            Rule::TenCharacters => format!("{:>12.10}", word.to_string()),
            Rule::BlankForZero if word == 0 => format!("{:>12}", ""),
            Rule::Unsigned => format!("{:>12}", word as u32),
            _ => format!("{word:>12}"),
        }
    }
}

/// The number by the rules of the specification, or 0.
fn stated_number(input: &[u8]) -> i32 {
    let says = read(&page(input));
    says.expect("a page can be read").number()
}

/// For how many inputs each other rule would have given another page.
#[derive(Debug)]
pub struct OtherPages(Noticed<Rule, { Rule::OTHERS.len() }>);

impl OtherPages {
    pub const NONE: OtherPages = OtherPages(Noticed::none(Rule::OTHERS));

    pub fn look(&mut self, input: &[u8]) {
        let stated = page(input);
        assert!(Rule::Stated.page(input) == stated, "input {input:02X?}");
        self.0.look(|rule| rule.page(input) != stated);
    }

    pub fn print_and_require_all_rules(&self, test: &str) {
        self.0.print_and_require_all_rules(test, "pages");
    }
}

#[test]
fn a_page_of_another_layout_is_not_read() {
    let is_read = |rule: Rule, sample: PageSample| read(&rule.page(&sample.bytes())).is_ok();
    for sample in PageSample::ALL {
        assert!(is_read(Rule::Stated, sample), "{sample:?}");
    }
    for rule in [
        Rule::Columns11,
        Rule::Columns13,
        Rule::MinusAtTheEdge,
        Rule::LeftAligned,
        Rule::ZerosInFront,
        Rule::BlankBehind,
        Rule::NoLastLineFeed,
        Rule::PlusSigns,
        Rule::BlankForZero,
        Rule::Unsigned,
    ] {
        assert!(!is_read(rule, PageSample::Extremes), "{rule:?}");
    }
    for rule in [Rule::NumberAlone, Rule::RefusalRecord] {
        assert!(!is_read(rule, PageSample::Empty), "{rule:?}");
    }
}
