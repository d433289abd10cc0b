//! What a file of `specs/` or `proofs/` declares: definitions and laws, records with their fields,
//! data with their constructors, and on which lines. What a proof declares for itself in a `where`
//! is set in further, and is left out.
use super::Named;
use crate::item::Sort;
use std::ops::Range;

/// What may stand before a name.
const MARKS: [&str; 5] = ["abbrev", "unfoldable", "opaque", "pub", "private"];

/// The marks of a value that others may look into: what has one is no law.
const VALUES: [&str; 3] = ["abbrev", "unfoldable", "opaque"];

#[derive(Clone, Copy, PartialEq, Eq, Debug)]
pub enum Form {
    Record,
    Data,
    Module,
    Field,
    Constructor,
    /// a value, or a statement: its type is `Type 0`
    Definition,
    /// a name with a type and a proof of it
    Law,
}

/// A declaration, by the lines of its file, which count from 0.
#[derive(Clone, Debug)]
pub struct Declaration {
    /// the records, data and named modules around it
    pub within: Vec<String>,
    pub name: String,
    pub form: Form,
    /// all of it, up to the next declaration that does not stand in it
    pub lines: Range<usize>,
    /// its signature, or a record's or module's first lines up to `where`
    pub head: Range<usize>,
    /// the first lines of the modules around it, whose premises are its own
    pub around: Vec<Range<usize>>,
}

/// A record, data type or module that is not at its end.
struct Open {
    indent: usize,
    name: String,
    form: Form,
    head: Range<usize>,
}

pub fn named(text: &str, sort: Sort) -> Vec<Named> {
    let found = declarations(text).into_iter();
    found
        .map(|found| (found.within, found.name, sort))
        .collect()
}

pub fn declarations(text: &str) -> Vec<Declaration> {
    let lines: Vec<&str> = text.lines().collect();
    let mut open: Vec<Open> = Vec::new();
    let mut found: Vec<(usize, Declaration)> = Vec::new();
    for (at, line) in lines.iter().enumerate() {
        let rest = line.trim_start();
        let indent = line.len() - rest.len();
        if code(line).is_empty() {
            continue;
        }
        open.retain(|outer| outer.indent < indent);
        if open.last().map_or(0, |outer| outer.indent + 2) != indent {
            continue;
        }
        let words = without_marks(rest);
        let block = block(&words);
        let names = block.map_or_else(|| signature(&words), |(_, name)| vec![name.to_string()]);
        let head = at..head_end(&lines, at, block.is_some());
        for name in names {
            let form =
                block.map_or_else(|| form(&open, rest, &lines[head.clone()]), |(form, _)| form);
            found.push((indent, declaration(&open, name, form, head.clone())));
        }
        if let Some((form, name)) = block {
            let name = name.to_string();
            open.push(Open {
                indent,
                name,
                form,
                head,
            });
        }
    }
    closed(found, lines.len())
}

/// A line without its comment and the blanks around it.
pub fn code(line: &str) -> &str {
    let line = line.trim();
    if line.starts_with("--") {
        return "";
    }
    line.split(" -- ").next().unwrap_or(line).trim_end()
}

fn declaration(open: &[Open], name: String, form: Form, head: Range<usize>) -> Declaration {
    let around = open.iter().map(|outer| &outer.name);
    let modules = open.iter().filter(|outer| outer.form == Form::Module);
    Declaration {
        within: around.filter(|name| *name != "_").cloned().collect(),
        name,
        form,
        lines: head.clone(),
        around: modules.map(|outer| outer.head.clone()).collect(),
        head,
    }
}

/// Each declaration goes on up to the next one that is not set in further.
fn closed(found: Vec<(usize, Declaration)>, end: usize) -> Vec<Declaration> {
    let starts: Vec<(usize, usize)> = found
        .iter()
        .map(|(indent, found)| (*indent, found.lines.start))
        .collect();
    let close = |(indent, mut found): (usize, Declaration)| {
        let mut later = starts
            .iter()
            .filter(|(other, start)| *other <= indent && *start > found.lines.start);
        found.lines.end = later.next().map_or(end, |(_, start)| *start);
        found
    };
    found.into_iter().map(close).collect()
}

/// Where the signature that begins on a line ends: before the next line that is not set in further.
/// A record's or module's first lines end with `where`.
fn head_end(lines: &[&str], at: usize, block: bool) -> usize {
    if block {
        let ends = |line: &&str| code(line).ends_with("where");
        return lines[at..].iter().position(ends).map_or(at, |far| at + far) + 1;
    }
    let indent = |line: &str| line.len() - line.trim_start().len();
    let goes_on = |line: &&&str| !line.trim().is_empty() && indent(line) > indent(lines[at]);
    at + 1 + lines[at + 1..].iter().take_while(goes_on).count()
}

fn without_marks(line: &str) -> Vec<&str> {
    line.split_whitespace()
        .skip_while(|word| MARKS.contains(word))
        .collect()
}

/// The record, data type or module that begins here.
fn block<'a>(words: &[&'a str]) -> Option<(Form, &'a str)> {
    match words {
        ["record", name, ..] if *name != "{" => Some((Form::Record, name)),
        ["data", name, ..] => Some((Form::Data, name)),
        ["module", name, ..] => Some((Form::Module, name)),
        _ => None,
    }
}

/// What a name with a signature is.
fn form(open: &[Open], line: &str, head: &[&str]) -> Form {
    let values = |word: &str| VALUES.contains(&word);
    let is_statement = head
        .last()
        .is_some_and(|line| code(line).ends_with("Type 0"));
    match open.last().map(|outer| outer.form) {
        Some(Form::Record) => Form::Field,
        Some(Form::Data) => Form::Constructor,
        _ if line
            .split_whitespace()
            .take_while(|word| *word != ":")
            .any(values) =>
        {
            Form::Definition
        }
        _ if is_statement => Form::Definition,
        _ => Form::Law,
    }
}

/// The names before the colon of a signature.
fn signature(words: &[&str]) -> Vec<String> {
    let Some(colon) = words.iter().position(|word| *word == ":") else {
        return Vec::new();
    };
    let names = &words[..colon];
    // a bracket or an arrow before the colon: the line goes on with a type
    let is_name = |word: &&str| *word != "→" && !word.contains(['(', ')', '{', '}', '=', ',', '.']);
    if names.iter().all(is_name) {
        names.iter().map(|name| name.to_string()).collect()
    } else {
        Vec::new()
    }
}

#[cfg(test)]
mod tests {
    use super::*;

    fn names(text: &str) -> Vec<String> {
        let join = |(mut within, name, _): Named| {
            within.push(name);
            within.join(".")
        };
        named(text, Sort::Spec).into_iter().map(join).collect()
    }

    const KEPT: &str = "
use a.{b}

-- x : not one
abbrev pub f : ℕ → ℕ
f n = n

pub record Kept (l : Load) : Type 0 where
  -- why
  pub words : (p : ℕ)
      → p ≡ p
  pub written : ℕ

law-1 : ℕ
law-1 = zero

Holds : ℕ → Type 0
";

    const MODULES: &str = "
module _ (l : Load)
    (h : A) where
  pub start : ℕ
  start = go
    where
      go : ℕ
      go = 1

  record Holds : Type 0 where
    left : ℕ

last : ℕ
";

    #[test]
    fn definitions_records_and_fields() {
        let expected = ["f", "Kept", "Kept.words", "Kept.written", "law-1", "Holds"];
        assert_eq!(names(KEPT), expected);
    }

    #[test]
    fn modules_without_a_name_and_local_definitions() {
        let expected = ["_", "start", "Holds", "Holds.left", "last"];
        assert_eq!(names(MODULES), expected);
    }

    #[test]
    fn constructors() {
        let text = "pub data Lent : Type 0 where\n  loaded : Lent\n";
        assert_eq!(names(text), ["Lent", "Lent.loaded"]);
        assert_eq!(declarations(text)[1].form, Form::Constructor);
    }

    #[test]
    fn lines_and_forms() {
        let said = |found: &Declaration| (found.form, found.lines.clone(), found.head.clone());
        let found: Vec<_> = declarations(KEPT).iter().map(said).collect();
        let expected = [
            (Form::Definition, 4..7, 4..5),
            (Form::Record, 7..13, 7..8),
            (Form::Field, 9..11, 9..11),
            (Form::Field, 11..13, 11..12),
            (Form::Law, 13..16, 13..14),
            (Form::Definition, 16..17, 16..17),
        ];
        assert_eq!(found, expected);
        let inner = &declarations(MODULES)[1];
        assert_eq!((inner.around.len(), inner.lines.clone()), (1, 3..9));
        assert_eq!(inner.around[0], 1..3);
    }

    #[test]
    fn comments_are_no_code() {
        assert_eq!(code("  -- why"), "");
        assert_eq!(code("  f n = n -- why"), "f n = n");
    }
}
