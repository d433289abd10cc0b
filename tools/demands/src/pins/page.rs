//! `docs/PINS.md`: the tables of promises, and the wrong programs that pin each.
use super::call::Call;
use super::crates::Crates;
use super::edit::Program;
use super::table::{Row, Table};
use super::theorem::Theorem;
use crate::page::link;
use crate::tree::Found;
use std::collections::BTreeSet;

const INTRODUCTION: &str = "# What pins each promise

A wrong program is an edit that the prover must refuse: `crates/*/must-fail` has them, in files that `rt ci` tries one by one. `tools/check-edits.sh` reads
what that says of each file and tells which was refused in a way that shows nothing; after `make try-edits` it tells which program was not refused for
its own sake. A wrong program pins a promise when its edit stands in the text of the promise and makes it false, or makes the program wrong that the promise
is about. Were the promise taken away, or weakened where the edit stands, the edit would no longer apply or no longer be refused, and the gate would
fail; a change anywhere else in its text changes the sum that stands beside it.

This page is made from the tree and `docs/demands.txt` by `make demands`, and `make check-docs` compares it, so no crate, theorem, row, call or edit
can go unseen. The sum of a theorem is that of its text, comments left out, and of all that it names in its crate; the sum of a clause is that of
the clause. What they name of other crates is not in it: those definitions are what a reader believes, and `docs/TRUST.md` says so. The rows of a
table share one wrong program, and so do the clauses of `respond` and those of `page_text`; `errors:` in its file says how many errors the log has
to have. What the page asks for:

- of each theorem that `docs/demands.txt` cites: of a record, an edit in each field; of a definition, an edit in its text; of a law, an edit in its
  signature or in a definition that this names, by which the law itself falls (`law:`)
- of each table of examples that such a law names: an edit in each row
- of each call offered to others: an edit in each `ensures`, two wrong programs besides, and no `requires`
- of every other public function with a contract, what a type has of a trait included: two wrong programs
- of each wrong program: that it stands in one of the tables below, or that a sentence of `docs/demands.txt` is about it
";

/// What the page shows.
pub struct Shown<'a> {
    pub crates: &'a Crates<'a>,
    /// as `crates.txt` lists them
    pub names: &'a [String],
    pub theorems: &'a [Theorem],
    pub tables: &'a [Table],
    pub offered: &'a [Call],
    pub public: &'a [Call],
}

impl Shown<'_> {
    pub fn page(&self) -> String {
        let mut page = INTRODUCTION.to_string();
        page += &self.crate_table();
        page += "\n## Theorems\n";
        for name in self.names {
            page += &self.theorem_table(name);
        }
        page += "\n## Tables of examples\n";
        for table in self.tables {
            page += &self.row_table(table);
        }
        page += &self.offered_table();
        page += &self.public_table();
        page + &format!(
            "\n## The verdict\n\n{} crates are proved and {} edit files are refused. The gate's last line is `{}`.\n",
            self.names.len(),
            self.files(),
            self.verdict()
        )
    }

    /// The wrong programs that pin nothing and that no sentence is about: nobody would miss them.
    pub fn idle(&self, named: &[Found]) -> Vec<String> {
        let calls = self.offered.iter().chain(self.public);
        let of_calls = calls.flat_map(|call| {
            let clauses = call.clauses.iter().flat_map(|(_, _, pins)| pins);
            clauses.chain(&call.others)
        });
        let rows = self.tables.iter().flat_map(|table| &table.rows);
        let pins: BTreeSet<usize> = self
            .theorems
            .iter()
            .flat_map(|theorem| &theorem.pins)
            .chain(rows.flat_map(|row| &row.pins))
            .chain(of_calls)
            .copied()
            .collect();
        let is_named = |program: &Program| {
            let name = format!(".{}", program.name);
            let is = |found: &Found| found.path == program.path && found.name.ends_with(&name);
            named.iter().any(is)
        };
        let edits = self.crates.edits.iter().enumerate();
        edits
            .filter(|(at, edit)| !pins.contains(at) && !is_named(&edit.program))
            .map(|(_, edit)| {
                format!(
                    "{}: the wrong program {} pins nothing, and no sentence of docs/demands.txt is about it",
                    edit.program.path, edit.program.name
                )
            })
            .collect()
    }

    /// What `rt ci` has to say.
    fn verdict(&self) -> String {
        format!("{} passed, 0 failed", self.names.len() + self.files())
    }

    fn files(&self) -> usize {
        self.names.iter().map(|name| self.files_of(name)).sum()
    }

    fn files_of(&self, name: &str) -> usize {
        let folder = format!("crates/{name}/must-fail/");
        let is_edit = |path: &&String| path.starts_with(&folder) && path.ends_with(".edit");
        self.crates.texts.keys().filter(is_edit).count()
    }

    fn crate_table(&self) -> String {
        let mut text =
            "\n## Crates\n\n| Crate | Edit files | Wrong programs |\n|---|--:|--:|\n".to_string();
        for name in self.names {
            let programs = self
                .crates
                .edits_where(|edit| edit.program.of_crate == *name);
            text += &format!(
                "| `{name}` | {} | {} |\n",
                self.files_of(name),
                programs.len()
            );
        }
        text
    }

    fn theorem_table(&self, of_crate: &str) -> String {
        let of = |theorem: &&Theorem| theorem.of_crate == of_crate;
        let row = |theorem: &Theorem| {
            let name = link(&theorem.name, &theorem.path);
            self.row(&format!("{name} | `{}`", theorem.sum), &theorem.pins)
        };
        let rows: String = self.theorems.iter().filter(of).map(row).collect();
        if rows.is_empty() {
            return rows;
        }
        format!("\n### {of_crate}\n\n| Theorem | Text | Pinned by |\n|---|---|---|\n{rows}")
    }

    fn row_table(&self, table: &Table) -> String {
        let row = |row: &Row| self.row(&format!("`{}`", row.text.replace('|', "\\|")), &row.pins);
        let rows: String = table.rows.iter().map(row).collect();
        let title = link(&table.name, &table.path);
        format!("\n### {title}\n\n| Row | Pinned by |\n|---|---|\n{rows}")
    }

    fn offered_table(&self) -> String {
        let mut text =
            "\n## Calls offered to others\n\n| Call | Clause | Text | Pinned by |\n|---|---|---|---|\n"
                .to_string();
        for call in self.offered {
            let name = link(&call.name, &call.path);
            for (title, sum, pins) in &call.clauses {
                text += &format!("| {name} | `{title}` | `{sum}` | {} |\n", self.links(pins));
            }
            text += &format!(
                "| {name} | what it does | | {} |\n",
                self.links(&call.others)
            );
        }
        text
    }

    fn public_table(&self) -> String {
        let row = |call: &Call| self.row(&link(&call.name, &call.path), &call.others);
        let rows: String = self.public.iter().map(row).collect();
        format!("\n## Other public functions\n\n| Function | Wrong programs |\n|---|---|\n{rows}")
    }

    fn row(&self, name: &str, pins: &[usize]) -> String {
        format!("| {name} | {} |\n", self.links(pins))
    }

    fn links(&self, pins: &[usize]) -> String {
        let programs = pins.iter().map(|at| &self.crates.edits[*at].program);
        let links: Vec<String> = programs
            .map(|program| link(&program.name, &program.path))
            .collect();
        if links.is_empty() {
            return "nothing yet".to_string();
        }
        links.join(", ")
    }
}
