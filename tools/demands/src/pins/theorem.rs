//! The theorems that `docs/demands.txt` cites, and the wrong programs that pin each.
use super::crates::{Crates, Spec};
use super::place::Span;
use super::sum::sum;
use super::table::Table;
use crate::scan::antt::Form;
use crate::tree::Found;
use std::collections::BTreeSet;

pub struct Theorem {
    pub of_crate: String,
    pub name: String,
    pub path: String,
    /// the line of its name, from 1
    pub line: usize,
    /// of its text and of all that this names in its crate
    pub sum: String,
    /// the wrong programs that pin it
    pub pins: Vec<usize>,
    /// what is asked of a wrong program that pins it
    pub wanted: String,
}

/// The cited theorems in the order of the tree, a record as its fields.
pub fn theorems(crates: &Crates, cited: &[Found], tables: &[Table]) -> Vec<Theorem> {
    let numbers: BTreeSet<usize> = cited
        .iter()
        .flat_map(|found| expanded(crates, found))
        .collect();
    let theorem = |number: usize| theorem(crates, number, tables);
    numbers.into_iter().map(theorem).collect()
}

/// The declarations that a cited name means: itself, or a record's fields.
pub fn expanded(crates: &Crates, found: &Found) -> Vec<usize> {
    let here = |spec: &Spec| spec.path == found.path;
    let is = |spec: &Spec| here(spec) && spec.full == found.name;
    let numbers = |holds: &dyn Fn(&Spec) -> bool| -> Vec<usize> {
        let specs = crates.specs.iter().enumerate();
        specs
            .filter(|(_, spec)| holds(spec))
            .map(|(at, _)| at)
            .collect()
    };
    let found = numbers(&is);
    match found[..] {
        [at] if crates.specs[at].inner.form == Form::Record => {
            let record = &crates.specs[at];
            numbers(&|spec| {
                here(spec)
                    && spec.inner.form == Form::Field
                    && record.inner.lines.contains(&spec.inner.lines.start)
            })
        }
        _ => found,
    }
}

fn theorem(crates: &Crates, number: usize, tables: &[Table]) -> Theorem {
    let spec = &crates.specs[number];
    let (name, pins, wanted) = match spec.inner.form {
        _ if proved_function(spec).is_some() => contract_proof(crates, spec),
        Form::Law => law(crates, number),
        Form::Constructor => constructor(spec, tables),
        _ => (
            spec.shown(),
            crates.edits_in(&[spec.span()]),
            "an `old:` in its text".to_string(),
        ),
    };
    Theorem {
        of_crate: spec.of_crate.clone(),
        name,
        path: spec.path.clone(),
        line: spec.inner.lines.start + 1,
        sum: sum(crates.texts, &statement(crates, number)),
        pins,
        wanted,
    }
}

/// A law is pinned where it falls itself, by an edit of what it says.
fn law(crates: &Crates, number: usize) -> (String, Vec<usize>, String) {
    let spec = &crates.specs[number];
    let name = spec.shown();
    let said = statement(crates, number);
    let pins = crates.edits_where(|edit| {
        edit.program.of_crate == spec.of_crate
            && edit.program.laws.contains(&spec.inner.name)
            && edit.stands_in(&said)
    });
    let wanted = format!(
        "`law: {}` and an `old:` in its signature or in a definition that this names",
        spec.inner.name
    );
    (name, pins, wanted)
}

/// A case of a table is pinned where one of its rows is.
fn constructor(spec: &Spec, tables: &[Table]) -> (String, Vec<usize>, String) {
    let rows = tables.iter().flat_map(|table| &table.rows);
    let rows = rows.filter(|row| row.uses(&spec.inner.name));
    let pins: BTreeSet<usize> = rows.flat_map(|row| row.pins.clone()).collect();
    let wanted = "an `old:` in a row of a table that uses it".to_string();
    (spec.shown(), pins.into_iter().collect(), wanted)
}

/// The function whose contract an `Answers.antt` proves, in one `returns` or in a `returns-clause-NAME`
/// for each clause.
fn proved_function(spec: &Spec) -> Option<String> {
    let folder = spec
        .path
        .strip_prefix(&format!("crates/{}/proofs/", spec.of_crate))?;
    let folder = folder.strip_suffix("/Answers.antt")?;
    let name = &spec.inner.name;
    let proves = name == "returns" || name.starts_with("returns-clause-");
    proves.then(|| folder.replace('/', "::"))
}

fn contract_proof(crates: &Crates, spec: &Spec) -> (String, Vec<usize>, String) {
    let function = proved_function(spec).unwrap_or_default();
    let logged = format!("{}::{function}", spec.of_crate);
    let code = crates.code.iter().find(|code| code.logged == logged);
    let pins = code.map_or_else(Vec::new, |code| crates.edits_of(code));
    let wanted = format!("`fn: {function}`");
    (format!("{function}.{}", spec.inner.name), pins, wanted)
}

/// What a theorem says: the signature of a law, with the premises of the modules around it, or all of
/// a definition, and the records, data and definitions of its crate that these name, with all that
/// those name in turn.
pub fn statement(crates: &Crates, number: usize) -> Vec<Span> {
    let law = &crates.specs[number];
    let text = match law.inner.form {
        Form::Law => &law.inner.head,
        _ => &law.inner.lines,
    };
    let around = law.inner.around.iter().chain([text]);
    let mut spans: Vec<Span> = around.map(|lines| law.span_of(lines)).collect();
    let mut reached = BTreeSet::new();
    let mut at = 0;
    while at < spans.len() {
        for other in crates.named_in(&law.of_crate, &spans[at]) {
            if reached.insert(other) {
                spans.push(crates.specs[other].span());
            }
        }
        at += 1;
    }
    spans
}

#[cfg(test)]
mod tests {
    use super::super::crates::tests::tree;
    use super::*;

    const SPECS: &str = "
abbrev pub Kept : ℕ → Type 0
Kept n = n ≡ 1

pub record Holds : Type 0 where
  pub left : Kept 1
  pub right : Kept 2

unfoldable pub aside : ℕ
aside = 5
";

    const PROOFS: &str = "
module _ (n : ℕ) where
  pub holds : Holds
  holds = record { left = aside; right = 4 }
";

    /// For each of the cited names: the wrong programs that pin it.
    fn pins(cited: &[(&str, &str)], edits: &str) -> Vec<(String, usize)> {
        let texts = tree(&[
            ("crates/a/specs/S.antt", SPECS),
            ("crates/a/proofs/P.antt", PROOFS),
            (
                "crates/a/proofs/m/f/Answers.antt",
                "pub returns : goal.a\nreturns c = x\n\npub returns-clause-rows : goal.b\nreturns-clause-rows c = x\n",
            ),
            ("crates/a/src/m.rt", "fn f() {\n    7\n}\n"),
            ("crates/a/must-fail/e.edit", edits),
        ]);
        let (crates, faults) = Crates::new(&texts);
        assert!(faults.is_empty(), "{faults:?}");
        let found = |(path, name): &(&str, &str)| Found {
            path: format!("crates/a/{path}"),
            name: name.to_string(),
        };
        let cited: Vec<Found> = cited.iter().map(found).collect();
        let found = theorems(&crates, &cited, &[]).into_iter();
        found.map(|found| (found.name, found.pins.len())).collect()
    }

    fn edit(lines: &str, file: &str, old: &str) -> String {
        format!("wrong: w\n{lines}\nfile: {file}\nold: {old}\nnew: other\n")
    }

    fn said(name: &str, count: usize) -> (String, usize) {
        (name.to_string(), count)
    }

    #[test]
    fn a_record_is_pinned_field_by_field() {
        let cited = [("specs/S.antt", "a.specs.S.Holds")];
        let found = pins(&cited, &edit("law: holds", "specs/S.antt", "Kept 2"));
        assert_eq!(found, [said("Holds.left", 0), said("Holds.right", 1)]);
    }

    #[test]
    fn a_statement_or_value_is_pinned_in_its_text() {
        let cited = [
            ("specs/S.antt", "a.specs.S.Kept"),
            ("specs/S.antt", "a.specs.S.aside"),
        ];
        let found = pins(
            &cited,
            &edit("law: holds", "specs/S.antt", "Kept n = n ≡ 1"),
        );
        assert_eq!(found, [said("Kept", 1), said("aside", 0)]);
    }

    #[test]
    fn a_law_falls_itself_by_an_edit_of_what_it_says() {
        let cited = [("proofs/P.antt", "a.proofs.P.holds")];
        for (lines, file, old, count) in [
            ("law: holds", "specs/S.antt", "n ≡ 1", 1),
            ("law: holds", "proofs/P.antt", "pub holds", 1),
            ("law: holds", "proofs/P.antt", "(n : ℕ)", 1),
            ("law: other", "specs/S.antt", "n ≡ 1", 0),
            ("law: holds", "specs/S.antt", "aside = 5", 0),
            ("law: holds", "proofs/P.antt", "right = 4", 0),
        ] {
            let found = pins(&cited, &edit(lines, file, old));
            assert_eq!(found, [said("holds", count)], "{lines} {old}");
        }
    }

    #[test]
    fn the_proof_of_a_contract_is_pinned_by_its_function() {
        for name in ["returns", "returns-clause-rows"] {
            let full = format!("a.proofs.m.f.Answers.{name}");
            let cited = [("proofs/m/f/Answers.antt", full.as_str())];
            let found = pins(&cited, &edit("fn: m::f", "src/m.rt", "    7"));
            assert_eq!(found, [said(&format!("m::f.{name}"), 1)]);
        }
    }
}
