//! The references of a document: what it has in backticks and in links.
use crate::scan::end;

/// The folders at the top: a path that begins with one is meant from there.
pub const TOP: [&str; 10] = [
    "bench",
    "crates",
    "docs",
    "examples",
    "host",
    "include",
    "reference",
    "tools",
    ".ci",
    ".cargo",
];

/// Files at the top without an ending.
const FILES: [&str; 2] = ["LICENSE", "Makefile"];

/// What a word has to end with to be a path, where it names no top folder.
const ENDS: [&str; 14] = [
    "antt", "rt", "edit", "rs", "c", "h", "cpp", "sh", "awk", "md", "txt", "toml", "bin", "svg",
];

#[derive(Debug, PartialEq)]
pub struct Reference {
    pub line: usize,
    pub path: String,
    /// what the file declares, a line number, two with a - between them, or nothing
    pub name: String,
}

pub fn references(text: &str) -> Vec<Reference> {
    let mut found = Vec::new();
    let mut fenced = false;
    let mut paragraph = String::new();
    let mut first = 1;
    for (at, line) in text.lines().chain([""]).enumerate() {
        let begin = line.trim_start();
        let fence = begin.starts_with("```") || begin.starts_with("~~~");
        if fence || begin.is_empty() {
            found.extend(in_paragraph(first, &paragraph));
            paragraph.clear();
            fenced ^= fence;
        } else if !fenced {
            if paragraph.is_empty() {
                first = at + 1;
            }
            paragraph += line;
            paragraph.push('\n');
        }
    }
    found
}

/// Every second piece between backticks is code.
fn in_paragraph(first: usize, text: &str) -> Vec<Reference> {
    let pieces: Vec<&str> = text.split('`').collect();
    let mut line = first;
    let mut found = Vec::new();
    for (at, piece) in pieces.iter().enumerate() {
        if at % 2 == 0 {
            found.extend(links(line, piece));
        } else if let Some(cited) = cited(line, piece) {
            let name = (at > 2)
                .then(|| pieces[at - 2])
                .filter(|name| is_name(name));
            let between = pieces[at - 1].split_whitespace().collect::<Vec<_>>();
            let named = name.filter(|_| cited.name.is_empty() && between == ["in"]);
            found.extend(named.map(|name| Reference {
                line,
                path: cited.path.clone(),
                name: name.to_string(),
            }));
            found.push(cited);
        }
        line += piece.matches('\n').count();
    }
    found
}

/// The targets of the links in a text.
fn links(line: usize, text: &str) -> Vec<Reference> {
    let mut found = Vec::new();
    for (at, _) in text.match_indices("](") {
        let Some((target, _)) = text[at + 2..].split_once(')') else {
            continue;
        };
        let path = target.split('#').next().unwrap_or(target);
        if !path.is_empty() && !path.contains(|c: char| c.is_whitespace() || ":(".contains(c)) {
            found.push(Reference {
                line: line + text[..at].matches('\n').count(),
                path: path.to_string(),
                name: String::new(),
            });
        }
    }
    found
}

/// A piece of code as a reference, if it is one: a path, and perhaps a name or line after it.
fn cited(line: usize, text: &str) -> Option<Reference> {
    let text = text.replacen("#L", ":", 1).replacen('#', ":", 1);
    let (path, name) = text.split_once(':').unwrap_or((&text, ""));
    let apart = |c: char| c.is_whitespace() || "*?<>$(){}|".contains(c);
    (is_path(path) && !text.contains(apart) && !name.starts_with("//")).then(|| Reference {
        line,
        path: path.to_string(),
        name: name.replace("::", "."),
    })
}

/// Whether a text without blanks is a path of the repository.
fn is_path(text: &str) -> bool {
    let letter = |c: char| c.is_ascii_alphanumeric() || "_./+-".contains(c);
    let parts: Vec<&str> = text.split('/').collect();
    let built = ["target", "build"].contains(&parts[0]);
    let placeholder = |part: &&str| {
        let stem = part.split('.').next().unwrap_or(part);
        ["NAME", "LABEL"].contains(&stem)
    };
    if !text.chars().all(letter) || text.starts_with('/') || text.contains("...") || built {
        return false;
    }
    if parts.iter().any(placeholder) {
        return false;
    }
    let stem = text.strip_suffix(&format!(".{}", end(text)));
    let ends =
        stem.is_some_and(|stem| stem.ends_with(|c: char| c.is_ascii_alphanumeric() || c == '_'));
    parts.len() > 1 && TOP.contains(&parts[0])
        || FILES.contains(&text)
        || ends && ENDS.contains(&end(text))
}

/// Whether a text can be the name of a declaration: no path, and made of its letters.
fn is_name(text: &str) -> bool {
    let letter = |c: char| c.is_ascii_alphanumeric() || "_-.".contains(c);
    text.starts_with(|c: char| c.is_ascii_alphabetic() || c == '_')
        && text.replace("::", ".").chars().all(letter)
        && !is_path(text)
}

#[cfg(test)]
mod tests {
    use super::*;

    fn found(text: &str) -> Vec<String> {
        let said = |cited: Reference| format!("{} {} {}", cited.line, cited.path, cited.name);
        let found = references(text).into_iter().map(said);
        found.map(|said| said.trim_end().to_string()).collect()
    }

    #[test]
    fn paths_names_and_lines() {
        let text =
            "See `src/lib.rs:f` and\n`Makefile`, `docs/A.md#L12`; `crates/a/src/w.rt:Word::ONE`.\n";
        let expected = [
            "1 src/lib.rs f",
            "2 Makefile",
            "2 docs/A.md 12",
            "2 crates/a/src/w.rt Word.ONE",
        ];
        assert_eq!(found(text), expected);
    }

    #[test]
    fn a_name_in_a_path() {
        let expected = ["1 specs/S.antt Kept.words", "1 specs/S.antt"];
        assert_eq!(found("`Kept.words` in `specs/S.antt`"), expected);
        assert_eq!(found("`A.md` in `docs/x`"), ["1 A.md", "1 docs/x"]);
        assert_eq!(found("`f` and `specs/S.antt`"), ["1 specs/S.antt"]);
    }

    #[test]
    fn what_is_no_reference() {
        for text in [
            "`crates/*/specs`",
            "`target/x.rs`",
            "`crates/NAME/src`",
            "`must-fail/LABEL.edit`",
            "`name`",
            "`cargo run a.rs`",
            "`https://a.rs`",
            "[a](https://a.b)",
            "[a](#part)",
            "```sh\n`a.rs`\n```",
        ] {
            assert!(found(text).is_empty(), "{text}");
        }
    }

    #[test]
    fn links_and_their_lines() {
        assert_eq!(
            found("a\n\nb [c](d.md#e)\n[f](../g)\n"),
            ["3 d.md", "4 ../g"]
        );
    }
}
