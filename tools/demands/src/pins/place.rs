//! Where the old text of a pair stands.
use super::edit::Pair;
use std::ops::Range;

/// A line of a file. Lines count from 0.
#[derive(Clone, Debug, PartialEq)]
pub struct Place {
    pub path: String,
    pub line: usize,
}

/// Some lines of a file.
#[derive(Clone, Debug, PartialEq)]
pub struct Span {
    pub path: String,
    pub lines: Range<usize>,
}

impl Span {
    pub fn new(path: &str, lines: &Range<usize>) -> Span {
        Span {
            path: path.to_string(),
            lines: lines.clone(),
        }
    }

    pub fn covers(&self, place: &Place) -> bool {
        self.path == place.path && self.lines.contains(&place.line)
    }
}

/// The one place where the old text of a pair stands in a file's text, or why there is not one. Where
/// it stands in a comment it edits nothing.
pub fn place(text: &str, pair: &Pair) -> Result<Place, String> {
    let Pair { path, old, new, .. } = pair;
    if old == new {
        return Err(format!("the new text is the old one, `{old}`"));
    }
    let found: Vec<usize> = text.match_indices(old).map(|(at, _)| at).collect();
    let [at] = found[..] else {
        let times = found.len();
        return Err(format!(
            "`{old}` stands {times} times in {path}, and has to stand once"
        ));
    };
    let line = text[..at].matches('\n').count();
    let begin = text.lines().nth(line).unwrap_or("").trim_start();
    if begin.starts_with("--") || begin.starts_with("//") {
        return Err(format!("`{old}` stands in a comment of {path}"));
    }
    let path = path.clone();
    Ok(Place { path, line })
}

#[cfg(test)]
mod tests {
    use super::*;

    fn found(old: &str, new: &str) -> Result<usize, String> {
        let text = "// one\nfn f() -> u8 {\n    2\n}\nfn g() -> u8 {\n";
        let pair = Pair {
            line: 1,
            path: "a.rt".to_string(),
            old: old.to_string(),
            new: new.to_string(),
        };
        place(text, &pair).map(|place| place.line)
    }

    #[test]
    fn an_old_text_stands_once() {
        assert_eq!(found("    2", "    3"), Ok(2));
        assert_eq!(
            found("2", "2").unwrap_err(),
            "the new text is the old one, `2`"
        );
        assert_eq!(
            found("u8", "u9").unwrap_err(),
            "`u8` stands 2 times in a.rt, and has to stand once"
        );
        assert!(found("gone", "").unwrap_err().contains("stands 0 times"));
        assert!(found("one", "two").unwrap_err().contains("in a comment"));
    }
}
