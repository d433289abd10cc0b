//! Checks what `README.md`, `CONTRIBUTING.md` and the pages of `docs/` cite in backticks and links:
//!
//! ```text
//! `path`             the file or folder exists
//! `path:12`          and has that many lines (also path:12-20 and path#L12)
//! `path:name`        and declares the name
//! `name` in `path`   the same
//! ```
//!
//! A path is written from the top of the repository; one that names no top folder
//! (`specs/Lib.antt`) may be that of any crate. Commands, globs, placeholders (NAME, LABEL), URLs,
//! fenced code and what is built (target/, build/) are no references.
use crate::scan::Texts;

mod cite;
mod declared;
mod files;

use cite::Reference;
pub use declared::declares;

/// How many references the documents have, and those that mean nothing.
pub fn check(texts: &Texts) -> (usize, Vec<String>) {
    let mut checked = 0;
    let mut faults = Vec::new();
    for (document, text) in texts.iter().filter(|(path, _)| is_document(path)) {
        for reference in cite::references(text) {
            checked += 1;
            if let Some(miss) = miss(texts, document, &reference) {
                faults.push(format!("{document}:{}: {miss}", reference.line));
            }
        }
    }
    (checked, faults)
}

fn is_document(path: &str) -> bool {
    match path.split('/').collect::<Vec<_>>()[..] {
        [name] => ["README.md", "CONTRIBUTING.md"].contains(&name),
        ["docs", name] | ["docs", "changes", name] => name.ends_with(".md"),
        _ => false,
    }
}

/// What a reference misses.
fn miss(texts: &Texts, document: &str, reference: &Reference) -> Option<String> {
    let Reference { path, name, .. } = reference;
    let meant = files::meant(texts, document, path);
    if meant.is_empty() {
        return Some(format!("there is no {path}"));
    }
    if name.is_empty() || meant.iter().any(|path| holds(texts, path, name)) {
        return None;
    }
    Some(if is_lines(name) {
        format!("{path} has no line {name}")
    } else {
        format!("{path} declares no {name}")
    })
}

/// Whether a file is as long as a line number asks, or declares a name.
fn holds(texts: &Texts, path: &str, name: &str) -> bool {
    let Some(text) = texts.get(path) else {
        return false;
    };
    match name.rsplit('-').next().map(str::parse) {
        Some(Ok(last)) if is_lines(name) => text.lines().count() >= last,
        _ => declares(path, text, name),
    }
}

/// Whether a name is a line number, or two.
fn is_lines(name: &str) -> bool {
    name.chars().all(|c| c.is_ascii_digit() || c == '-')
}

#[cfg(test)]
mod tests {
    use super::*;

    #[test]
    fn what_the_documents_cite_is_there() {
        let files = [
            ("README.md", "`docs/A.md:3`, `docs/A.md:2`, `f` in `specs/S.antt`,\n`g` in `specs/S.antt` and [a](docs/B.md).\n"),
            ("docs/A.md", "[up](../README.md)\n`crates/a/specs`\n"),
            ("docs/changes/1.md", "`crates/b`\n"),
            ("crates/a/specs/S.antt", "-- g\nabbrev f : ℕ\nf = 1\n"),
            ("tools/README.md", "`no.rs`\n"),
        ];
        let owned = files.map(|(path, text)| (path.to_string(), text.to_string()));
        let (checked, faults) = check(&owned.into());
        let expected = [
            "README.md:1: docs/A.md has no line 3",
            "README.md:2: specs/S.antt declares no g",
            "README.md:2: there is no docs/B.md",
            "docs/changes/1.md:1: there is no crates/b",
        ];
        assert_eq!(faults, expected);
        assert_eq!(checked, 10);
    }
}
