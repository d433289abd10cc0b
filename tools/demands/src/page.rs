//! `docs/DEMANDS.md`: what the source says, with a link for each name.
use crate::cited::references;
use crate::fault::Fault;
use crate::kind::Kind;
use crate::source::{Block, Carrier, Sentence};
use crate::tree::{Found, Tree};
use std::collections::HashSet;

/// The page, or everything that is wrong with its source.
pub fn page(blocks: &[Block], tree: &Tree) -> Result<String, Vec<Fault>> {
    let mut writer = Writer {
        tree,
        sections: HashSet::new(),
        faults: Vec::new(),
    };
    let mut page = String::new();
    let mut section = "";
    let mut count = 0;
    for block in blocks {
        match block {
            Block::Section { line, id, title } => {
                section = id;
                count = 0;
                writer.section(*line, id);
                page += &format!("## {title}\n\n");
            }
            Block::Offered(..) => {}
            Block::Text(line, lines) => {
                page += &format!("{}\n\n", writer.text(*line, &lines.join("\n")).trim_end())
            }
            Block::Sentence(sentence) => {
                count += 1;
                page += &writer.sentence(&format!("{section}.{count}"), sentence);
            }
        }
    }
    if writer.faults.is_empty() {
        Ok(format!("{}\n", page.trim_end()))
    } else {
        Err(writer.faults)
    }
}

struct Writer<'a> {
    tree: &'a Tree,
    sections: HashSet<String>,
    faults: Vec<Fault>,
}

impl Writer<'_> {
    fn fault(&mut self, line: usize, what: String) {
        self.faults.push(Fault { line, what });
    }

    fn section(&mut self, line: usize, id: &str) {
        if !self.sections.insert(id.to_string()) {
            self.fault(line, format!("another section has the id {id}"));
        }
    }

    fn sentence(&mut self, id: &str, sentence: &Sentence) -> String {
        if sentence.carriers.is_empty() {
            self.fault(sentence.line, format!("no carrier: {}", sentence.text));
        }
        let mut seen = HashSet::new();
        let mut text = format!("**{id}** {}\n", sentence.text);
        for carrier in &sentence.carriers {
            text += &self.carrier(carrier, &mut seen);
        }
        text + "\n"
    }

    fn carrier(&mut self, carrier: &Carrier, seen: &mut HashSet<(Kind, Found)>) -> String {
        let mut links = Vec::new();
        for name in &carrier.names {
            let Some(found) = self.find(carrier.line, carrier.kind, name) else {
                continue;
            };
            if !seen.insert((carrier.kind, found.clone())) {
                self.fault(
                    carrier.line,
                    format!(
                        "{} {name} stands twice under this sentence",
                        carrier.kind.letter()
                    ),
                );
            }
            links.push(link(name, &found.path));
        }
        let remark = self.text(carrier.line, &carrier.remark);
        let colon = if links.is_empty() || remark.is_empty() {
            ""
        } else {
            ": "
        };
        format!(
            "- {} {}{colon}{remark}\n",
            carrier.kind.letter(),
            links.join(",\n  ")
        )
    }

    fn find(&mut self, line: usize, kind: Kind, name: &str) -> Option<Found> {
        self.tree
            .find(kind, name)
            .map_err(|what| self.fault(line, format!("{} {what}", kind.letter())))
            .ok()
    }

    /// A text with its references, `{D name}`, made links.
    fn text(&mut self, line: usize, text: &str) -> String {
        let mut out = String::new();
        let mut at = 0;
        for (range, kind, name) in references(text) {
            let line = line + text[..range.start].matches('\n').count();
            out += &text[at..range.start];
            at = range.end;
            if let Some(found) = self.find(line, kind, name) {
                out += &link(name, &found.path);
            }
        }
        out + &text[at..]
    }
}

/// A link from a page in docs/ to a file of the tree.
pub fn link(name: &str, path: &str) -> String {
    format!("[`{name}`](../{path})")
}

#[cfg(test)]
mod tests {
    use super::*;
    use crate::item::{Item, Sort};
    use crate::source;
    use std::path::Path;

    fn made(text: &str) -> Result<String, Vec<String>> {
        let item = |name: &str, path: &str, sort| Item {
            name: name.into(),
            within: vec!["a".into()],
            path: path.into(),
            sort,
        };
        let items = vec![
            item("load_of", "crates/a/specs/L.antt", Sort::Spec),
            item("load", "crates/a/src/l.rt", Sort::Contract),
            item("early", "crates/a/must-fail/early.edit", Sort::Wrong),
        ];
        let blocks = source::parse(text).unwrap();
        let said = |faults: Vec<Fault>| {
            faults
                .into_iter()
                .map(|fault| format!("{}: {}", fault.line, fault.what))
                .collect()
        };
        page(&blocks, &Tree::new(Path::new("."), items)).map_err(said)
    }

    #[test]
    fn blocks_with_links() {
        let text = r#"% c
== D1 Demand 1
By {D load_of} {x}.

> "one"
C load -- as {D load_of}

> "two"
N why
X early
"#;
        let expected = r#"## Demand 1

By [`load_of`](../crates/a/specs/L.antt) {x}.

**D1.1** "one"
- C [`load`](../crates/a/src/l.rt): as [`load_of`](../crates/a/specs/L.antt)

**D1.2** "two"
- N why
- X [`early`](../crates/a/must-fail/early.edit)
"#;
        assert_eq!(made(text).unwrap(), expected);
    }

    #[test]
    fn everything_wrong_is_said() {
        let text = "> one\n\n> two\nD load\nC load load\n\n{D no}\n== D1 A\n== D1 B\n";
        let faults = made(text).unwrap_err();
        let expected = [
            "1: no carrier",
            "4: D load is a function",
            "5: C load stands twice",
            "7: D no is nowhere",
            "9: another section has the id D1",
        ];
        for (fault, start) in faults.iter().zip(expected) {
            assert!(fault.starts_with(start), "{fault}");
        }
        assert_eq!(faults.len(), expected.len(), "{faults:?}");
    }
}
