//! What a file of `src/` declares, and on which lines.
use super::Named;
use crate::item::Sort;
use std::ops::Range;

mod block;

use block::Block;

/// A declaration, by the lines of its file, which count from 0.
#[derive(Clone, Debug)]
pub struct Declaration {
    /// the type or trait that it is associated with, as a log has it
    pub of: Option<String>,
    pub name: String,
    pub sort: Sort,
    /// whether others may use it
    pub public: bool,
    pub lines: Range<usize>,
    /// of a function's contract
    pub clauses: Vec<Clause>,
}

/// An `ensures` or `requires` of a contract.
#[derive(Clone, Debug, PartialEq)]
pub struct Clause {
    pub ensures: bool,
    /// its words up to the bracket, as `ensures size`
    pub title: String,
    pub lines: Range<usize>,
}

pub fn named(text: &str) -> Vec<Named> {
    let found = declarations(text).into_iter();
    found
        .map(|found| (found.of.into_iter().collect(), found.name, found.sort))
        .collect()
}

pub fn declarations(text: &str) -> Vec<Declaration> {
    let lines: Vec<&str> = text.lines().collect();
    let mut found: Vec<Declaration> = Vec::new();
    // the `impl` or `trait` that is open
    let mut block = None;
    for (at, line) in lines.iter().enumerate() {
        let member = match indent(line) {
            0 if !line.is_empty() => false,
            4 if block.is_some() => true,
            _ => continue,
        };
        if !member {
            let hidden = |name: &str| {
                let is = |found: &Declaration| found.sort == Sort::Type && found.name == name;
                found.iter().any(|found| is(found) && !found.public)
            };
            block = Block::new(&lines[at..end(&lines, at)], hidden);
        }
        let around = block.as_ref().filter(|_| member);
        if let Some((word, name)) = declared(line) {
            found.extend(declaration(around, word, name, &lines, at));
        }
    }
    found
}

/// The first word of a line after the marks of its item, and the name after it. A ghost member has
/// no word of its own.
fn declared(line: &str) -> Option<(&str, String)> {
    let marks = ["ghost", "extern", "\"C\""];
    let words = line.split_whitespace();
    let mut words = words.skip_while(|word| word.starts_with("pub") || marks.contains(word));
    let (word, next) = (words.next()?, words.next()?);
    if line.trim_start().starts_with("ghost ") && (word.ends_with(':') || next == "=") {
        return Some(("ghost", identifier(word)));
    }
    Some((word, identifier(next)))
}

fn declaration(
    around: Option<&Block>,
    word: &str,
    name: String,
    lines: &[&str],
    at: usize,
) -> Option<Declaration> {
    let range = at..end(lines, at);
    let clauses = if word == "fn" {
        clauses(lines, &range)
    } else {
        Vec::new()
    };
    let promised = around.is_some_and(|block| block.promised);
    let sort = match word {
        "fn" if promised || clauses.iter().any(|clause| clause.ensures) => Sort::Contract,
        "fn" => Sort::Function,
        "struct" | "enum" | "type" | "trait" => Sort::Type,
        "const" | "static" | "ghost" => Sort::Constant,
        "mod" => Sort::Module,
        _ => return None,
    };
    let marked = lines[at].trim_start().starts_with("pub ");
    Some(Declaration {
        of: around.map(|block| block.name.clone()),
        name,
        sort,
        public: marked || word == "fn" && around.is_some_and(|block| block.public),
        lines: range,
        clauses,
    })
}

/// The identifier at the start of a word.
pub fn identifier(word: &str) -> String {
    word.chars()
        .take_while(|c| c.is_alphanumeric() || *c == '_')
        .collect()
}

fn indent(line: &str) -> usize {
    line.len() - line.trim_start().len()
}

/// The line after the last one of an item: that one is set in as the first and closes it. Of a
/// function without a body it is the last of its clauses.
fn end(lines: &[&str], at: usize) -> usize {
    let mut body = false;
    let closes = |line: &&str| {
        let same = indent(line) == indent(lines[at]);
        let line = line.trim_end();
        body |= same && line.ends_with('{');
        same && line.ends_with(['}', ';']) || !body && line.ends_with("};")
    };
    let last = lines[at..].iter().position(closes);
    last.map_or(lines.len(), |far| at + far + 1)
}

/// The clauses between a function's name and its body.
fn clauses(lines: &[&str], range: &Range<usize>) -> Vec<Clause> {
    let mut found: Vec<Clause> = Vec::new();
    if lines[range.start].ends_with('{') {
        return found;
    }
    for at in range.clone() {
        let line = lines[at].trim();
        if line == "{" && indent(lines[at]) == indent(lines[range.start]) {
            break;
        }
        let title = line.split('{').next().unwrap_or(line).trim();
        match title.split(' ').next() {
            Some(word @ ("ensures" | "requires")) => found.push(Clause {
                ensures: word == "ensures",
                title: title.to_string(),
                lines: at..at + 1,
            }),
            _ => found
                .iter_mut()
                .rev()
                .take(1)
                .for_each(|last| last.lines.end = at + 1),
        }
    }
    found
}

#[cfg(test)]
mod tests {
    use super::*;

    const TEXT: &str = r#"
pub(crate) mod fetch;

pub struct Word {
    pub value: i32,
}

impl Word {
    pub const ONE: i32 = 1;

    pub fn scale(w: i64) -> Word
        ensures { x }
    {
        let y = 1;
    }
}

fn plain() {
    const INNER: u8 = 1;
}

pub extern "C" fn face(
    a: u8,
) -> u8
    requires { x }
    ensures size { y
        z }
{
}
"#;

    #[test]
    fn items_and_what_they_are_associated_with() {
        let joined = |(mut of, name, sort): Named| {
            of.push(format!("{name} {sort:?}"));
            of.join(".")
        };
        let found: Vec<String> = named(TEXT).into_iter().map(joined).collect();
        let expected = [
            "fetch Module",
            "Word Type",
            "Word.ONE Constant",
            "Word.scale Contract",
            "plain Function",
            "face Contract",
        ];
        assert_eq!(found, expected);
    }

    const BLOCKS: &str = r#"
pub trait Lane: Copy {
    ghost number: { Self → ℤ };

    fn oriented(
        sign: i32,
    ) -> Self
        requires { x }
        ensures { y };

    fn stored(self) -> u8;
}

static TABLE: [u8; 2] = [
    1,
    2,
];

pub struct Word(pub i64);

struct Hidden;

impl Lane for Word {
    ghost number = { λ w. w.0 };

    fn oriented(sign: i32) -> Word {
        const INNER: u8 = 1;
        Word(1)
    }
}

impl fmt::Display for Hidden {
    fn fmt(&self) {
    }
}

impl<W: Lane, const N: usize> Rows<W> {
    pub fn turn<const M: usize>(self) -> [W; M]
        ensures { z }
    {
    }
}
"#;

    #[test]
    fn traits_and_what_is_implemented_of_them() {
        let said = |found: &Declaration| {
            let of = found.of.as_deref().unwrap_or("-");
            let (sort, lines) = (found.sort, &found.lines);
            format!("{of} {} {sort:?} {} {lines:?}", found.name, found.public)
        };
        let found: Vec<String> = declarations(BLOCKS).iter().map(said).collect();
        let expected = [
            "- Lane Type true 1..12",
            "Lane number Constant false 2..3",
            "Lane oriented Contract false 4..9",
            "Lane stored Function false 10..11",
            "- TABLE Constant false 13..17",
            "- Word Type true 18..19",
            "- Hidden Type false 20..21",
            "WordLane number Constant false 23..24",
            "WordLane oriented Contract true 25..29",
            "HiddenDisplay fmt Function false 32..34",
            "Rows turn Contract true 37..41",
        ];
        assert_eq!(found, expected);
    }

    #[test]
    fn lines_and_clauses() {
        let found = declarations(TEXT);
        let lines: Vec<_> = found.iter().map(|found| found.lines.clone()).collect();
        assert_eq!(lines, [1..2, 3..6, 8..9, 10..15, 17..20, 21..29]);
        let public: Vec<_> = found.iter().map(|found| found.public).collect();
        assert_eq!(public, [false, true, true, true, false, true]);
        let titles = |clause: &Clause| (clause.ensures, clause.title.clone(), clause.lines.clone());
        let clauses: Vec<_> = found[5].clauses.iter().map(titles).collect();
        let expected = [
            (false, "requires".to_string(), 24..25),
            (true, "ensures size".to_string(), 25..27),
        ];
        assert_eq!(clauses, expected);
    }
}
