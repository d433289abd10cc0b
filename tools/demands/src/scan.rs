//! Collects everything in the tree that a carrier may name.
use crate::item::{Item, Sort};
use std::collections::BTreeMap;
use std::fs;
use std::io;
use std::path::Path;

pub mod antt;
pub mod outside;
pub mod rattle;

/// What is built, and what is no part of the tree.
const SKIPPED: [&str; 2] = ["build", ".git"];

/// Where rt keeps what it makes of a crate: copies of sources among it.
const OUT: &str = "out";

/// The files of the tree by their paths from the top. What is no text is read as one all the same.
pub type Texts = BTreeMap<String, String>;

/// A name of a file: the records and types around it, the name, and its sort.
type Named = (Vec<String>, String, Sort);

/// The files below a folder.
pub fn texts(top: &Path) -> io::Result<Texts> {
    let mut found = Texts::new();
    for path in files(top, "")? {
        let bytes = fs::read(top.join(&path))
            .map_err(|error| io::Error::new(error.kind(), format!("{path}: {error}")))?;
        found.insert(path, String::from_utf8_lossy(&bytes).into_owned());
    }
    Ok(found)
}

/// The named things of the tree.
pub fn items(texts: &Texts) -> Vec<Item> {
    let of = |(path, text): (&String, &String)| items_of(path, text);
    texts.iter().flat_map(of).collect()
}

/// The files below a folder by their paths from the top, in order.
fn files(top: &Path, folder: &str) -> io::Result<Vec<String>> {
    let mut found = Vec::new();
    let mut entries = fs::read_dir(top.join(folder))?.collect::<io::Result<Vec<_>>>()?;
    entries.sort_by_key(|entry| entry.file_name());
    for entry in entries {
        let name = entry.file_name().to_string_lossy().into_owned();
        if is_built(folder, &name) {
            continue;
        }
        let path = format!("{folder}{}{name}", if folder.is_empty() { "" } else { "/" });
        if entry.file_type()?.is_dir() {
            found.extend(files(top, &path)?);
        } else {
            found.push(path);
        }
    }
    Ok(found)
}

/// Whether what a folder holds by this name is made from the tree, and no part of it.
fn is_built(folder: &str, name: &str) -> bool {
    let parts: Vec<&str> = folder.split('/').collect();
    folder.is_empty() && SKIPPED.contains(&name)
        || matches!(parts[..], ["crates", _]) && name == OUT
}

/// What a path ends with after its last point.
pub fn end(path: &str) -> &str {
    path.rsplit_once('.').map_or("", |(_, end)| end)
}

/// The named things of one file.
pub fn items_of(path: &str, text: &str) -> Vec<Item> {
    let outer = within(path);
    let item = |(of, name, sort): Named| Item {
        name,
        within: outer.iter().cloned().chain(of).collect(),
        path: path.to_string(),
        sort,
    };
    named(path, text).into_iter().map(item).collect()
}

fn named(path: &str, text: &str) -> Vec<Named> {
    let parts: Vec<&str> = path.split('/').collect();
    match (&parts[..], end(path)) {
        (["crates", _, "specs", ..], "antt") => antt::named(text, Sort::Spec),
        (["crates", _, "proofs", ..], "antt") => antt::named(text, Sort::Proof),
        (["crates", _, "src", ..], "rt") => rattle::named(text),
        (["crates", _, "must-fail", _], "edit") => plain(wrong_programs(text), Sort::Wrong),
        (["crates", ..], _) => Vec::new(),
        (_, "rs") => plain(outside::rust(text), Sort::Outside),
        (_, "c" | "cpp" | "h") => plain(outside::c(text), Sort::Outside),
        _ => Vec::new(),
    }
}

fn plain(names: Vec<String>, sort: Sort) -> Vec<Named> {
    let name = |name| (Vec::new(), name, sort);
    names.into_iter().map(name).collect()
}

/// What the items of a file stand in: the crate, the folders and the file.
pub fn within(path: &str) -> Vec<String> {
    let path = path.strip_prefix("crates/").unwrap_or(path);
    let path = path.rsplit_once('.').map_or(path, |(stem, _)| stem);
    path.split('/').map(String::from).collect()
}

/// The names on the `wrong:` lines of an edit file.
fn wrong_programs(text: &str) -> Vec<String> {
    let names = text.lines().filter_map(|line| line.strip_prefix("wrong:"));
    names.map(|name| name.trim().to_string()).collect()
}

#[cfg(test)]
mod tests {
    use super::*;

    #[test]
    fn each_kind_of_file_has_its_names() {
        let found = items_of(
            "crates/a/must-fail/both.edit",
            "wrong: one\nfn: f\nold: x\nnew: y\nwrong: two\n",
        );
        assert_eq!(
            found
                .iter()
                .map(|item| item.name.as_str())
                .collect::<Vec<_>>(),
            ["one", "two"]
        );
        let found = items_of("crates/a/proofs/m/f/Answers.antt", "returns : ℕ\n");
        assert!(found[0].is_called("a.m.f.returns") && found[0].sort == Sort::Proof);
        let found = items_of("crates/a/src/m.rt", "pub const ONE: u8 = 1;\n");
        assert!(found[0].is_called("a.m.ONE") && found[0].sort == Sort::Constant);
        assert!(items_of("crates/a/stdout", "fn f").is_empty());
        assert!(items_of("tests/t.rs", "fn f() {}")[0].is_called("t.f"));
    }

    #[test]
    fn what_is_built_is_no_part_of_the_tree() {
        assert!(is_built("", "build") && is_built("crates/a", "out"));
        assert!(!is_built("crates/a/src", "out") && !is_built("host", "build"));
    }
}
