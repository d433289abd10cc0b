//! Finds what a name means.
use crate::documents::declares;
use crate::item::Item;
use crate::kind::Kind;
use std::fs;
use std::path::{Path, PathBuf};

/// How many places a message lists.
const LISTED: usize = 4;

pub struct Tree {
    top: PathBuf,
    items: Vec<Item>,
}

/// What a name means: a file, and something in it.
#[derive(Debug, PartialEq, Eq, Hash, Clone)]
pub struct Found {
    pub path: String,
    pub name: String,
}

impl Found {
    pub fn of(item: &Item) -> Found {
        Found {
            path: item.path.clone(),
            name: full_name(item),
        }
    }
}

impl Tree {
    pub fn new(top: &Path, items: Vec<Item>) -> Tree {
        Tree {
            top: top.to_path_buf(),
            items,
        }
    }

    /// The one thing that a name means as a carrier of this kind, or why there is not one.
    pub fn find(&self, kind: Kind, name: &str) -> Result<Found, String> {
        if kind == Kind::Run && name.contains(['/', ':']) {
            return self.find_path(name);
        }
        let called: Vec<&Item> = self
            .items
            .iter()
            .filter(|item| item.is_called(name))
            .collect();
        let fitting: Vec<&Item> = called
            .iter()
            .copied()
            .filter(|item| kind.fits(item.sort))
            .collect();
        match fitting[..] {
            [item] => Ok(Found::of(item)),
            [] if called.is_empty() => Err(format!("{name} is nowhere{}", self.near(kind, name))),
            [] => Err(format!(
                "{name} is {}, and {} wants {}",
                listed(&called, sort_and_path),
                kind.letter(),
                kind.wants()
            )),
            _ => Err(format!(
                "{name} may mean any of {}: say which",
                listed(&fitting, full_name_and_path)
            )),
        }
    }

    /// `path:name`, with the name declared in that file, or a path alone.
    fn find_path(&self, text: &str) -> Result<Found, String> {
        let (path, name) = text.split_once(':').unwrap_or((text, ""));
        let file = self.top.join(path);
        if !file.exists() {
            return Err(format!("there is no {path}"));
        }
        let declared = |bytes: Vec<u8>| declares(path, &String::from_utf8_lossy(&bytes), name);
        if !name.is_empty() && !fs::read(&file).is_ok_and(declared) {
            return Err(format!("{path} declares no {name}"));
        }
        Ok(Found {
            path: path.to_string(),
            name: name.to_string(),
        })
    }

    /// The fitting names that are most like one that is nowhere.
    fn near(&self, kind: Kind, name: &str) -> String {
        let last = name.rsplit('.').next().unwrap_or(name);
        let fitting = self.items.iter().filter(|item| kind.fits(item.sort));
        let mut near: Vec<(usize, &Item)> = fitting
            .map(|item| (distance(last, &item.name), item))
            .collect();
        near.retain(|(far, _)| *far <= 1 + last.len() / 4);
        near.sort_by_key(|(far, _)| *far);
        near.truncate(LISTED);
        let near: Vec<&Item> = near.into_iter().map(|(_, item)| item).collect();
        if near.is_empty() {
            ", nor is anything like it".to_string()
        } else {
            format!("; near it: {}", listed(&near, full_name_and_path))
        }
    }
}

fn full_name(item: &Item) -> String {
    let within = item.within.iter().chain([&item.name]);
    within.map(String::as_str).collect::<Vec<_>>().join(".")
}

fn full_name_and_path(item: &Item) -> String {
    format!("{} ({})", full_name(item), item.path)
}

fn sort_and_path(item: &Item) -> String {
    format!("{} ({})", item.sort.called(), item.path)
}

/// The first few of them, and how many more there are.
fn listed(items: &[&Item], text: fn(&Item) -> String) -> String {
    let few = items
        .iter()
        .take(LISTED)
        .map(|item| text(item))
        .collect::<Vec<_>>()
        .join(", ");
    match items.len().saturating_sub(LISTED) {
        0 => few,
        more => format!("{few} and {more} more"),
    }
}

/// How many letters are to be changed, added or taken away to make one word of another. Capital
/// letters count as small ones.
fn distance(a: &str, b: &str) -> usize {
    let (a, b) = (a.to_lowercase(), b.to_lowercase());
    let b: Vec<char> = b.chars().collect();
    let mut row: Vec<usize> = (0..=b.len()).collect();
    for (i, x) in a.chars().enumerate() {
        let mut before = row[0];
        row[0] = i + 1;
        for (j, y) in b.iter().enumerate() {
            let changed = before + usize::from(x != *y);
            before = row[j + 1];
            row[j + 1] = changed.min(row[j] + 1).min(before + 1);
        }
    }
    row[b.len()]
}

#[cfg(test)]
mod tests {
    use super::*;
    use crate::item::Sort;

    fn tree() -> Tree {
        let item = |within: &[&str], name: &str, sort| Item {
            name: name.into(),
            within: within.iter().map(|part| part.to_string()).collect(),
            path: format!("crates/{}.x", within.join("/")),
            sort,
        };
        let items = vec![
            item(&["engine", "src", "load"], "load", Sort::Contract),
            item(&["engine", "src", "load"], "inner", Sort::Function),
            item(&["engine", "specs", "Load"], "load_of", Sort::Spec),
            item(
                &["accuracy", "specs", "Demand3", "Kept"],
                "words",
                Sort::Spec,
            ),
            item(
                &["accuracy", "specs", "Demand3", "WholeKept"],
                "words",
                Sort::Spec,
            ),
        ];
        Tree::new(Path::new(env!("CARGO_MANIFEST_DIR")), items)
    }

    #[test]
    fn one_of_its_kind() {
        let tree = tree();
        assert_eq!(
            tree.find(Kind::Contract, "load").unwrap().path,
            "crates/engine/src/load.x"
        );
        assert_eq!(
            tree.find(Kind::Theorem, "Kept.words").unwrap().name,
            "accuracy.specs.Demand3.Kept.words"
        );
    }

    #[test]
    fn none_several_or_of_another_kind() {
        let tree = tree();
        let said = |kind, name| tree.find(kind, name).unwrap_err();
        assert!(said(Kind::Definition, "load_off")
            .contains("nowhere; near it: engine.specs.Load.load_of"));
        assert!(said(Kind::Definition, "zzzzzz").contains("nor is anything like it"));
        assert!(said(Kind::Theorem, "words").contains("Demand3.Kept.words"));
        assert!(said(Kind::Contract, "inner").contains("a function without `ensures`"));
        assert!(said(Kind::Definition, "load").contains("D wants a definition"));
    }

    #[test]
    fn a_path_with_a_name_in_it() {
        let tree = tree();
        assert_eq!(
            tree.find(Kind::Run, "src/tree.rs:find_path").unwrap().path,
            "src/tree.rs"
        );
        assert!(tree.find(Kind::Run, "src/tree.rs").is_ok());
        assert_eq!(
            tree.find(Kind::Run, "src/no.rs:x").unwrap_err(),
            "there is no src/no.rs"
        );
        assert_eq!(
            tree.find(Kind::Run, "Cargo.toml:deman").unwrap_err(),
            "Cargo.toml declares no deman"
        );
    }

    #[test]
    fn distances() {
        assert_eq!(
            (
                distance("load", "Load"),
                distance("load", "loads"),
                distance("abc", "xbd")
            ),
            (0, 1, 2)
        );
    }
}
