//! The files that a path of a document may mean.
use super::cite::TOP;
use crate::scan::Texts;

/// From the top, beside the document, or, where it names no top folder, in any of those.
pub fn meant(texts: &Texts, document: &str, path: &str) -> Vec<String> {
    let folder = document.rsplit_once('/').map_or("", |(folder, _)| folder);
    let beside = format!("{folder}/{path}");
    let mut near = [path, &beside].into_iter().map(plain);
    if let Some(found) = near.find(|path| exists(texts, path)) {
        return vec![found];
    }
    let top = |path: &str| TOP.contains(&path.split('/').next().unwrap_or(path));
    let inner = format!("/{}", plain(path));
    let ends = |other: &&String| top(other) && other.ends_with(&inner);
    if top(path) {
        return Vec::new();
    }
    let mut found: Vec<String> = texts.keys().filter(ends).cloned().collect();
    let folder = |other: &&String| top(other) && other.contains(&format!("{inner}/"));
    if found.is_empty() {
        found.extend(texts.keys().find(folder).cloned());
    }
    found
}

/// Whether there is such a file, or a folder with files.
fn exists(texts: &Texts, path: &str) -> bool {
    let folder = format!("{path}/");
    let mut from = texts.range(folder.clone()..);
    texts.contains_key(path)
        || from
            .next()
            .is_some_and(|(other, _)| other.starts_with(&folder))
}

/// A path without `..`, empty parts and a / at its end.
fn plain(path: &str) -> String {
    let mut parts = Vec::new();
    for part in path.split('/') {
        match part {
            "" | "." => {}
            ".." => {
                parts.pop();
            }
            _ => parts.push(part),
        }
    }
    parts.join("/")
}

#[cfg(test)]
mod tests {
    use super::*;

    #[test]
    fn from_the_top_beside_or_in_a_crate() {
        let paths = [
            "README.md",
            "crates/a/specs/S.antt",
            "crates/b/specs/S.antt",
            "docs/A.md",
        ];
        let texts: Texts = paths.map(|path| (path.to_string(), String::new())).into();
        let found = |path| meant(&texts, "docs/A.md", path);
        assert_eq!(found("README.md"), ["README.md"]);
        assert_eq!(found("A.md"), ["docs/A.md"]);
        assert_eq!(found("../crates/a/"), ["crates/a"]);
        assert_eq!(found("specs/S.antt").len(), 2);
        assert_eq!(found("a/specs").len(), 1);
        assert!(found("crates/S.antt").is_empty() && found("T.antt").is_empty());
    }
}
