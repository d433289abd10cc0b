//! The crates taken apart: what each declares, on which lines, and where its wrong programs stand.
use super::edit::{self, Pair, Program};
use super::place::{place, Place, Span};
use crate::item::Sort;
use crate::scan::antt::{self, Form};
use crate::scan::rattle;
use crate::scan::{end, within, Texts};
use std::collections::HashMap;
use std::ops::Range;

/// A declaration of `specs/` or `proofs/`.
pub struct Spec {
    pub of_crate: String,
    pub path: String,
    /// its name with everything that it stands in, as `tree::Found` has it
    pub full: String,
    pub inner: antt::Declaration,
}

impl Spec {
    pub fn span(&self) -> Span {
        self.span_of(&self.inner.lines)
    }

    pub fn span_of(&self, lines: &Range<usize>) -> Span {
        Span::new(&self.path, lines)
    }

    /// Its name, and before it the record that it is a field of.
    pub fn shown(&self) -> String {
        let within = self.inner.within.iter().chain([&self.inner.name]);
        within.map(String::as_str).collect::<Vec<_>>().join(".")
    }
}

/// A declaration of `src/`.
pub struct Code {
    pub of_crate: String,
    pub path: String,
    /// as `Spec` has it
    pub full: String,
    /// as a log has it: crate::module::Type::function
    pub logged: String,
    pub inner: rattle::Declaration,
}

impl Code {
    pub fn span(&self) -> Span {
        self.span_of(&self.inner.lines)
    }

    pub fn span_of(&self, lines: &Range<usize>) -> Span {
        Span::new(&self.path, lines)
    }
}

/// A wrong program and the places that it edits.
pub struct Edit {
    pub program: Program,
    pub places: Vec<Place>,
}

impl Edit {
    pub fn stands_in(&self, spans: &[Span]) -> bool {
        let inside = |place| spans.iter().any(|span| span.covers(place));
        self.places.iter().any(inside)
    }
}

pub struct Crates<'a> {
    pub texts: &'a Texts,
    pub specs: Vec<Spec>,
    pub code: Vec<Code>,
    pub edits: Vec<Edit>,
    /// what can be named in a statement of a crate: by crate and name
    named: HashMap<(String, String), Vec<usize>>,
}

impl Crates<'_> {
    /// The crates of a tree, and what is wrong with their edit files.
    pub fn new(texts: &Texts) -> (Crates<'_>, Vec<String>) {
        let mut crates = Crates {
            texts,
            specs: Vec::new(),
            code: Vec::new(),
            edits: Vec::new(),
            named: HashMap::new(),
        };
        let mut programs = Vec::new();
        let mut faults = Vec::new();
        for (path, text) in texts {
            match (&path.split('/').collect::<Vec<_>>()[..], end(path)) {
                (["crates", name, "specs" | "proofs", ..], "antt") => {
                    crates.add_specs(name, path, text)
                }
                (["crates", name, "src", ..], "rt") => crates.add_code(name, path, text),
                (["crates", _, "must-fail", _], "edit") => {
                    let (found, wrong) = edit::programs(path, text);
                    programs.extend(found);
                    faults.extend(wrong);
                }
                _ => {}
            }
        }
        crates.name_by_types();
        // the texts as the earlier pairs of an edit file have made them
        let mut made = Texts::new();
        let mut file = String::new();
        for program in programs {
            if file != program.path {
                made.clear();
                file.clone_from(&program.path);
            }
            faults.extend(crates.add_edit(program, &mut made));
        }
        (crates, faults)
    }

    fn add_specs(&mut self, of_crate: &str, path: &str, text: &str) {
        for inner in antt::declarations(text) {
            if matches!(inner.form, Form::Record | Form::Data | Form::Definition) {
                let key = (of_crate.to_string(), inner.name.clone());
                self.named.entry(key).or_default().push(self.specs.len());
            }
            self.specs.push(Spec {
                of_crate: of_crate.to_string(),
                path: path.to_string(),
                full: full(path, &inner.within, &inner.name),
                inner,
            });
        }
    }

    fn add_code(&mut self, of_crate: &str, path: &str, text: &str) {
        for inner in rattle::declarations(text) {
            let of: Vec<String> = inner.of.iter().cloned().collect();
            self.code.push(Code {
                of_crate: of_crate.to_string(),
                path: path.to_string(),
                full: full(path, &of, &inner.name),
                logged: logged(path, &of, &inner.name),
                inner,
            });
        }
    }

    /// A log names the functions of a type by the module in which the type stands, wherever they do.
    fn name_by_types(&mut self) {
        let key = |of_crate: &str, name: &str| (of_crate.to_string(), name.to_string());
        let is_type = |code: &&Code| code.inner.sort == Sort::Type && code.inner.of.is_none();
        let types = self.code.iter().filter(is_type);
        let types: HashMap<_, _> = types
            .map(|code| (key(&code.of_crate, &code.inner.name), code.path.clone()))
            .collect();
        for code in &mut self.code {
            let of: Vec<String> = code.inner.of.iter().cloned().collect();
            let path = of
                .first()
                .and_then(|of| types.get(&key(&code.of_crate, of)));
            if let Some(path) = path {
                code.logged = logged(path, &of, &code.inner.name);
            }
        }
    }

    /// Adds a wrong program, and answers what is wrong with it. Each of its pairs applies to what the
    /// earlier ones of its file have made.
    fn add_edit(&mut self, program: Program, made: &mut Texts) -> Vec<String> {
        let mut places = Vec::new();
        let mut faults = Vec::new();
        for pair in &program.pairs {
            match self.declared_place(pair, made) {
                Ok(found) => places.extend(found),
                Err(what) => faults.push(format!(
                    "{}:{}: {}: {what}",
                    program.path, pair.line, program.name
                )),
            }
        }
        if places.is_empty() && faults.is_empty() {
            faults.push(format!(
                "{}: {}: it changes no declaration",
                program.path, program.name
            ));
        }
        for name in &program.functions {
            if !self.code.iter().any(|code| is_named(code, &program, name)) {
                faults.push(format!(
                    "{}: {}: there is no fn {name}",
                    program.path, program.name
                ));
            }
        }
        self.edits.push(Edit { program, places });
        faults
    }

    /// The place of a pair, which has to stand in some declaration, or none where it only changes
    /// what a file uses of others. Lines stay where they are, so that it is that of the file itself.
    fn declared_place(&self, pair: &Pair, made: &mut Texts) -> Result<Option<Place>, String> {
        let path = &pair.path;
        let text = made.get(path).or_else(|| self.texts.get(path));
        let text = text.ok_or_else(|| format!("there is no {path}"))?;
        let place = place(text, pair)?;
        let edited = text.replacen(&pair.old, &pair.new, 1);
        made.insert(path.clone(), edited);
        let mut spans = self.specs.iter().map(Spec::span);
        let mut codes = self.code.iter().map(Code::span);
        if spans.any(|span| span.covers(&place)) || codes.any(|span| span.covers(&place)) {
            return Ok(Some(place));
        }
        if pair.old.starts_with("use ") {
            return Ok(None);
        }
        Err(format!(
            "`{}` stands in no declaration of {}",
            pair.old, pair.path
        ))
    }

    /// The wrong programs for which something holds, by their numbers.
    pub fn edits_where(&self, holds: impl Fn(&Edit) -> bool) -> Vec<usize> {
        let numbers = 0..self.edits.len();
        numbers.filter(|at| holds(&self.edits[*at])).collect()
    }

    /// The wrong programs that edit some of these lines.
    pub fn edits_in(&self, spans: &[Span]) -> Vec<usize> {
        self.edits_where(|edit| edit.stands_in(spans))
    }

    /// The wrong programs that name a function in a `fn:` line.
    pub fn edits_of(&self, code: &Code) -> Vec<usize> {
        self.edits_where(|edit| {
            let mut names = edit.program.functions.iter();
            names.any(|name| is_named(code, &edit.program, name))
        })
    }

    /// The code of some lines, without comments.
    pub fn lines(&self, span: &Span) -> impl Iterator<Item = (usize, &str)> {
        let text = self.texts.get(&span.path).map_or("", String::as_str);
        let lines = text.lines().map(antt::code).enumerate();
        lines.skip(span.lines.start).take(span.lines.len())
    }

    /// The records, data and definitions of a crate that some lines name.
    pub fn named_in(&self, of_crate: &str, span: &Span) -> Vec<usize> {
        let words = self.lines(span).flat_map(|(_, line)| words(line));
        let key = |word: &str| (of_crate.to_string(), word.to_string());
        let found = words.filter_map(|word| self.named.get(&key(word)));
        found.flatten().copied().collect()
    }
}

/// The identifiers of a line.
pub fn words(line: &str) -> impl Iterator<Item = &str> {
    let apart = |c: char| c.is_whitespace() || "(){};,.".contains(c);
    line.split(apart).filter(|word| !word.is_empty())
}

/// Whether a `fn:` line of a wrong program means this function. The crate's name may be left out.
fn is_named(code: &Code, program: &Program, name: &str) -> bool {
    code.of_crate == program.of_crate
        && (code.logged == name || code.logged == format!("{}::{name}", program.of_crate))
}

fn full(path: &str, of: &[String], name: &str) -> String {
    let mut parts = within(path);
    parts.extend(of.iter().cloned());
    parts.push(name.to_string());
    parts.join(".")
}

/// A function as a log names it: `src/run.rt` is the module run, `src/lib.rt` the crate itself.
fn logged(path: &str, of: &[String], name: &str) -> String {
    let mut parts = within(path);
    parts.retain(|part| !["src", "lib", "main", "mod"].contains(&part.as_str()));
    parts.extend(of.iter().cloned());
    parts.push(name.to_string());
    parts.join("::")
}

#[cfg(test)]
pub mod tests {
    use super::*;

    /// A tree of these files.
    pub fn tree(files: &[(&str, &str)]) -> Texts {
        let owned = |(path, text): &(&str, &str)| (path.to_string(), text.to_string());
        files.iter().map(owned).collect()
    }

    const SOURCE: &str = "use a;\n// one\nconst ONE: u8 = 1;\n\nimpl Word {\n    pub fn f() -> u8\n        ensures { x }\n    {\n        2\n    }\n}\n";

    fn faults(edit: &str) -> Vec<String> {
        let texts = tree(&[
            ("crates/a/src/m.rt", SOURCE),
            ("crates/a/must-fail/e.edit", edit),
        ]);
        Crates::new(&texts).1
    }

    #[test]
    fn an_edit_stands_in_a_declaration_and_names_a_function() {
        let edit = |function, old| {
            format!("wrong: w\nfn: {function}\nfile: src/m.rt\nold: {old}\nnew: 3\n")
        };
        assert!(faults(&edit("m::Word::f", "        2")).is_empty());
        assert!(faults(&edit("a::m::Word::f", "u8 = 1")).is_empty());
        assert_eq!(
            faults(&edit("m::Word::f", "impl")),
            ["crates/a/must-fail/e.edit:5: w: `impl` stands in no declaration of crates/a/src/m.rt"]
        );
        assert_eq!(
            faults(&edit("f", "        2")),
            ["crates/a/must-fail/e.edit: w: there is no fn f"]
        );
        assert_eq!(
            faults(&edit("m::Word::f", "use a;")),
            ["crates/a/must-fail/e.edit: w: it changes no declaration"]
        );
        let more = "old: use a;\nnew: use b;\n";
        assert!(faults(&(edit("m::Word::f", "        2") + more)).is_empty());
        // a second pair for what the first one made, and one for what the first took away
        let more = "old: use b;\nnew: use c;\n";
        let first = edit("m::Word::f", "        2") + "old: use a;\nnew: use b;\n";
        assert!(faults(&(first.clone() + more)).is_empty());
        let again = "old: use a;\nnew: use c;\n";
        assert!(faults(&(first + again))[0].contains("`use a;` stands 0 times"));
    }

    #[test]
    fn functions_as_logs_name_them() {
        let texts = tree(&[
            ("crates/a/src/m.rt", SOURCE),
            ("crates/a/src/lib.rt", "fn g() {}\n"),
            (
                "crates/a/src/n.rt",
                "impl From<u8> for Word {\n    fn from() {\n    }\n}\n",
            ),
            ("crates/a/src/o.rt", "pub struct Word {\n    w: u8,\n}\n"),
        ]);
        let crates = Crates::new(&texts).0;
        let names: Vec<&str> = crates
            .code
            .iter()
            .map(|code| code.logged.as_str())
            .collect();
        let expected = [
            "a::g",
            "a::m::ONE",
            "a::o::Word::f",
            "a::n::WordFromU8::from",
            "a::o::Word",
        ];
        assert_eq!(names, expected);
    }

    #[test]
    fn names_of_lines_are_whole_words() {
        let texts = tree(&[(
            "crates/a/specs/S.antt",
            "abbrev f : ℕ\nf = 1 -- h\n\nabbrev f-g : ℕ\nf-g = 1\n\nl : (f .x) ≡ 1\nl = refl\n",
        )]);
        let crates = Crates::new(&texts).0;
        let span = crates.specs[2].span_of(&crates.specs[2].inner.head);
        assert_eq!(crates.named_in("a", &span), [0]);
    }
}
