//! What pins each promise: `docs/PINS.md`, and a fault for each promise that nothing pins.
use crate::scan::Texts;
use crate::tree::Found;
use std::collections::BTreeSet;

mod call;
mod crates;
mod edit;
mod page;
mod place;
mod sum;
mod table;
mod theorem;

use call::Call;
use crates::Crates;
use page::Shown;
use table::Table;
use theorem::Theorem;

const CRATES: &str = "crates.txt";

pub struct Pins {
    pub page: String,
    pub faults: Vec<String>,
    /// how many of each there are
    pub said: String,
}

/// What the source of the pages names: the theorems that it cites, the calls that it says are
/// offered to others, and the wrong programs that sentences are about.
pub struct Named {
    pub theorems: Vec<Found>,
    pub offered: Vec<Found>,
    pub programs: Vec<Found>,
}

/// The page of a tree whose source names these.
pub fn pins(texts: &Texts, named: &Named) -> Pins {
    let (crates, mut faults) = Crates::new(texts);
    let names = listed(texts.get(CRATES).map_or("", String::as_str));
    faults.extend(unlisted(texts, &names));
    let tables = table::tables(&crates, &named.theorems);
    let theorems = theorem::theorems(&crates, &named.theorems, &tables);
    let offered = call::offered(&crates, &named.offered);
    let public = call::public(&crates, &offered);
    faults.extend(theorems.iter().filter_map(unpinned));
    faults.extend(tables.iter().flat_map(unpinned_rows));
    let calls = offered.iter().chain(&public);
    faults.extend(calls.flat_map(|call: &Call| call.faults.clone()));
    let said = format!(
        "pins: {} theorems, {} rows of tables, {} calls and {} other functions, by {} wrong programs",
        theorems.len(),
        tables.iter().map(|table| table.rows.len()).sum::<usize>(),
        offered.len(),
        public.len(),
        crates.edits.len()
    );
    let shown = Shown {
        crates: &crates,
        names: &names,
        theorems: &theorems,
        tables: &tables,
        offered: &offered,
        public: &public,
    };
    faults.extend(shown.idle(&named.programs));
    Pins {
        page: shown.page(),
        faults,
        said,
    }
}

/// The crates of `crates.txt`: a line `name: what it stands on` for each, or `name staticlib: ..`.
fn listed(text: &str) -> Vec<String> {
    let lines = text.lines().filter(|line| !line.starts_with('#'));
    let heads = lines.filter_map(|line| line.split_once(':'));
    let names = heads.filter_map(|(head, _)| head.split_whitespace().next());
    names.map(String::from).collect()
}

/// Crates that stand in one of `crates/` and `crates.txt` alone: `rt ci` would not look at them.
fn unlisted(texts: &Texts, names: &[String]) -> Vec<String> {
    let there = texts.keys().filter_map(|path| path.strip_prefix("crates/"));
    let there: BTreeSet<&str> = there.filter_map(|path| path.split('/').next()).collect();
    let unlisted = there
        .iter()
        .filter(|name| !names.iter().any(|other| other == *name));
    let gone = names.iter().filter(|name| !there.contains(name.as_str()));
    let unlisted =
        unlisted.map(|name| format!("{CRATES}: the crate {name} of crates/ is not listed"));
    let gone = gone.map(|name| format!("{CRATES}: there is no crate {name} in crates/"));
    unlisted.chain(gone).collect()
}

fn unpinned(theorem: &Theorem) -> Option<String> {
    theorem.pins.is_empty().then(|| {
        format!(
            "{}:{}: the theorem {} is pinned by no wrong program: none has {}",
            theorem.path, theorem.line, theorem.name, theorem.wanted
        )
    })
}

fn unpinned_rows(table: &Table) -> Vec<String> {
    let rows = table.rows.iter().filter(|row| row.pins.is_empty());
    let fault = |row: &table::Row| {
        format!(
            "{}:{}: no wrong program edits the row `{}` of the table {}",
            table.path, row.line, row.text, table.name
        )
    };
    rows.map(fault).collect()
}

#[cfg(test)]
mod tests {
    use super::crates::tests::tree;
    use super::*;

    const SPECS: &str = "pub data Case : Type 0 where\n  loads : ℕ → Case\n\nabbrev pub cases : List Case\ncases =\n    loads 1\n    ∷ loads 2\n    ∷ []\n\npub marked : All cases\nmarked = refl\n";
    const SOURCE: &str = "pub fn f() -> u8\n    ensures { 10 }\n{\n    20\n}\n";
    const EDITS: &str = "wrong: one\nlaw: marked\nfile: specs/S.antt\nold: loads 1\nnew: loads 3\n\nwrong: two\nfn: f\nfile: src/lib.rt\nold: 10\nnew: 11\n\nwrong: three\nlaw: other\nfile: specs/S.antt\nold: loads : ℕ\nnew: loads : ℤ\n\nwrong: four\nlaw: other\nfile: specs/S.antt\nold: data Case\nnew: data Cases\n";

    fn found(path: &str, name: &str) -> Found {
        Found {
            path: path.to_string(),
            name: name.to_string(),
        }
    }

    fn made() -> Pins {
        let texts = tree(&[
            ("crates.txt", "# all\na:\ngone staticlib: a\n"),
            ("crates/a/specs/S.antt", SPECS),
            ("crates/a/src/lib.rt", SOURCE),
            ("crates/a/must-fail/e.edit", EDITS),
            ("crates/b/src/lib.rt", ""),
        ]);
        let cited = ["marked", "Case.loads"]
            .map(|name| found("crates/a/specs/S.antt", &format!("a.specs.S.{name}")));
        let named = Named {
            theorems: cited.into(),
            offered: vec![found("crates/a/src/lib.rt", "a.src.lib.f")],
            programs: vec![found("crates/a/must-fail/e.edit", "a.must-fail.e.three")],
        };
        pins(&texts, &named)
    }

    #[test]
    fn a_page_of_tables() {
        let page = made().page;
        let one = "[`one`](../crates/a/must-fail/e.edit)";
        for line in [
            "| `a` | 1 | 4 |".to_string(),
            "| [`Case.loads`](../crates/a/specs/S.antt) | `".to_string(),
            "| [`marked`](../crates/a/specs/S.antt) | `".to_string(),
            format!("| `loads 1` | {one} |"),
            "| `loads 2` | nothing yet |".to_string(),
            "| [`a::f`](../crates/a/src/lib.rt) | what it does | | nothing yet |".to_string(),
            "The gate's last line is `3 passed, 0 failed`.".to_string(),
        ] {
            assert!(page.contains(&line), "{line}\n{page}");
        }
    }

    #[test]
    fn every_promise_that_nothing_pins() {
        let faults = made().faults;
        let expected = [
            "crates.txt: the crate b of crates/ is not listed",
            "crates.txt: there is no crate gone in crates/",
            "crates/a/specs/S.antt:7: no wrong program edits the row `loads 2` of the table cases",
            "crates/a/src/lib.rt:1: a::f has 0 of 2 wrong programs besides those that edit its clauses",
            "crates/a/must-fail/e.edit: the wrong program four pins nothing, and no sentence of docs/demands.txt is about it",
        ];
        assert_eq!(faults, expected);
    }
}
