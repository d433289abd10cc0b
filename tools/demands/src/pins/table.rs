//! Tables of examples: a list with a row on each line, which a law says something of. Every row has
//! to be edited by some wrong program, for a row that is taken away takes its promise with it.
use super::crates::{words, Crates, Spec};
use super::theorem::expanded;
use crate::scan::antt::Form;
use crate::tree::Found;
use std::collections::BTreeSet;
use std::ops::Range;

pub struct Table {
    pub name: String,
    pub path: String,
    pub rows: Vec<Row>,
}

pub struct Row {
    pub text: String,
    /// its first line, from 1
    pub line: usize,
    /// the wrong programs that edit it
    pub pins: Vec<usize>,
}

impl Row {
    pub fn uses(&self, name: &str) -> bool {
        words(&self.text).any(|word| word == name)
    }
}

/// The tables that the cited laws name, directly or through one definition, and those cited.
pub fn tables(crates: &Crates, cited: &[Found]) -> Vec<Table> {
    let mut numbers = BTreeSet::new();
    for number in cited.iter().flat_map(|found| expanded(crates, found)) {
        let spec = &crates.specs[number];
        numbers.insert(number);
        if spec.inner.form == Form::Law {
            let direct = crates.named_in(&spec.of_crate, &spec.span_of(&spec.inner.head));
            for other in direct {
                numbers.insert(other);
                numbers.extend(crates.named_in(&spec.of_crate, &crates.specs[other].span()));
            }
        }
    }
    let table = |number: usize| table(crates, &crates.specs[number]);
    numbers.into_iter().filter_map(table).collect()
}

/// A declaration as a table, if it is one: a list, with rows below each other.
fn table(crates: &Crates, spec: &Spec) -> Option<Table> {
    let head = crates.lines(&spec.span_of(&spec.inner.head));
    let head: Vec<&str> = head.map(|(_, line)| line).collect();
    let head = head.join(" ");
    let (_, of_type) = head.split_once(" : ")?;
    if spec.inner.form != Form::Definition || !of_type.starts_with("List ") || of_type.contains('→')
    {
        return None;
    }
    let body = spec.span_of(&(spec.inner.head.end..spec.inner.lines.end));
    let lines: Vec<(usize, &str)> = crates.lines(&body).collect();
    let below = lines.iter().any(|(_, line)| line.starts_with('∷'));
    let row = |lines| row(crates, spec, lines);
    below.then(|| Table {
        name: spec.shown(),
        path: spec.path.clone(),
        rows: rows(&spec.inner.name, &lines)
            .into_iter()
            .map(row)
            .collect(),
    })
}

fn row(crates: &Crates, spec: &Spec, lines: Range<usize>) -> Row {
    let span = spec.span_of(&lines);
    let text: Vec<&str> = crates.lines(&span).map(|(_, line)| line).collect();
    let text = text.join(" ");
    let text = without_name(&spec.inner.name, &text);
    Row {
        text: text.trim_start_matches(['∷', ' ']).to_string(),
        line: lines.start + 1,
        pins: crates.edits_in(&[span]),
    }
}

/// The lines of each row: the first begins after `name =`, the others at a `∷`. `[]` is none.
fn rows(name: &str, lines: &[(usize, &str)]) -> Vec<Range<usize>> {
    let mut found: Vec<Range<usize>> = Vec::new();
    for (at, line) in lines {
        let line = without_name(name, line);
        let begins = line.strip_prefix('∷');
        let row = begins.unwrap_or(line).trim();
        match found.last_mut() {
            _ if row.is_empty() || row == "[]" || row.starts_with("unfolding ") => {}
            Some(last) if begins.is_none() => last.end = at + 1,
            _ => found.push(*at..at + 1),
        }
    }
    found
}

fn without_name<'a>(name: &str, line: &'a str) -> &'a str {
    let rest = line.strip_prefix(name).map(str::trim_start);
    let rest = rest.and_then(|rest| rest.strip_prefix('='));
    rest.unwrap_or(line).trim()
}

#[cfg(test)]
mod tests {
    use super::super::crates::tests::tree;
    use super::*;

    const SPECS: &str = "
pub data Case : Type 0 where
  loads : ℕ → Case
  scales : ℕ → Case

unfoldable pub cases : List Case
cases =
    -- M1
    loads 1
    ∷ loads
      2
    -- M2
    ∷ scales 3
    ∷ []

abbrev pub short : List ℕ
short = 1 ∷ 2 ∷ []

abbrev pub AllSay : Type 0
AllSay = All cases short

pub marked : AllSay
marked = refl
";

    fn found(of: &str, edits: &str) -> Vec<Table> {
        let texts = tree(&[
            ("crates/a/specs/S.antt", SPECS),
            ("crates/a/must-fail/e.edit", edits),
        ]);
        let (crates, faults) = Crates::new(&texts);
        assert!(faults.is_empty(), "{faults:?}");
        let cited = Found {
            path: "crates/a/specs/S.antt".to_string(),
            name: format!("a.specs.S.{of}"),
        };
        tables(&crates, &[cited])
    }

    #[test]
    fn each_row_by_itself() {
        let edits = "wrong: w\nlaw: marked\nfile: specs/S.antt\nold:       2\nnew:       3\n";
        let tables = found("marked", edits);
        assert_eq!(tables.len(), 1);
        let said = |row: &Row| (row.text.clone(), row.line, row.pins.len());
        let rows: Vec<_> = tables[0].rows.iter().map(said).collect();
        let row = |text: &str, line, pins| (text.to_string(), line, pins);
        let expected = [
            row("loads 1", 9, 0),
            row("loads 2", 10, 1),
            row("scales 3", 13, 0),
        ];
        assert_eq!(rows, expected);
        assert!(tables[0].rows[0].uses("loads") && !tables[0].rows[0].uses("load"));
    }

    #[test]
    fn what_is_no_table() {
        assert_eq!(found("cases", "").len(), 1);
        assert!(found("short", "").is_empty());
        assert!(found("AllSay", "").is_empty());
    }
}
