//! A file of `must-fail/`: its wrong programs, and the texts that each puts in place of others.

/// One wrong program. `tools/check-edits.sh` says what its lines mean.
#[derive(Clone, Debug, Default)]
pub struct Program {
    pub of_crate: String,
    /// the edit file
    pub path: String,
    pub name: String,
    /// what its `fn:` and `law:` lines name
    pub functions: Vec<String>,
    pub laws: Vec<String>,
    pub pairs: Vec<Pair>,
}

#[derive(Clone, Debug, PartialEq)]
pub struct Pair {
    /// the line of `new:`
    pub line: usize,
    /// the file that it edits, from the top of the repository
    pub path: String,
    pub old: String,
    pub new: String,
}

/// The wrong programs of an edit file, and what is wrong with the file.
pub fn programs(path: &str, text: &str) -> (Vec<Program>, Vec<String>) {
    let mut reader = Reader::new(path);
    for (at, line) in text.lines().enumerate() {
        if let Some((word, rest)) = line.split_once(':') {
            reader.read(at + 1, word, rest);
        }
    }
    if let Some((line, _)) = reader.old {
        reader.fault(line, "this `old:` has no `new:`");
    }
    (reader.found, reader.faults)
}

struct Reader {
    path: String,
    of_crate: String,
    /// what the last `file:` named: it holds until the next one
    file: String,
    old: Option<(usize, String)>,
    found: Vec<Program>,
    faults: Vec<String>,
}

impl Reader {
    fn new(path: &str) -> Reader {
        Reader {
            path: path.to_string(),
            of_crate: path.split('/').nth(1).unwrap_or("").to_string(),
            file: String::new(),
            old: None,
            found: Vec::new(),
            faults: Vec::new(),
        }
    }

    fn fault(&mut self, line: usize, what: &str) {
        self.faults.push(format!("{}:{line}: {what}", self.path));
    }

    fn read(&mut self, line: usize, word: &str, rest: &str) {
        let value = rest.trim().to_string();
        match (word, self.found.last_mut()) {
            ("wrong", _) => self.found.push(Program {
                of_crate: self.of_crate.clone(),
                path: self.path.clone(),
                name: value,
                ..Program::default()
            }),
            ("fn", Some(program)) => program.functions.push(value),
            ("law", Some(program)) => program.laws.push(without_field(&value)),
            ("file", _) => self.file = value,
            ("old", _) => self.old = Some((line, exact(rest))),
            ("new", _) => self.pair(line, exact(rest)),
            ("fn" | "law", None) => self.fault(line, "this belongs to no `wrong:`"),
            _ => {}
        }
    }

    fn pair(&mut self, line: usize, new: String) {
        let path = format!("crates/{}/{}", self.of_crate, self.file);
        let pair = self.old.take().map(|(_, old)| Pair {
            line,
            path,
            old,
            new,
        });
        match (self.found.last_mut(), pair) {
            (Some(program), Some(pair)) => program.pairs.push(pair),
            (None, _) => self.fault(line, "this belongs to no `wrong:`"),
            (_, None) => self.fault(line, "this `new:` has no `old:`"),
        }
    }
}

/// The text after the colon and one blank: every further blank belongs to it.
fn exact(rest: &str) -> String {
    rest.strip_prefix(' ').unwrap_or(rest).to_string()
}

/// The law of a line `law: NAME.FIELD`, which names the field of a record in whose proof it falls.
fn without_field(law: &str) -> String {
    law.split('.').next().unwrap_or(law).to_string()
}

#[cfg(test)]
mod tests {
    use super::*;

    #[test]
    fn programs_with_their_pairs() {
        let text = "wrong: one\nfn: f\nfile: src/lib.rt\nold:     x: 1\nnew:     x: 2\n\nwrong: two\nlaw: l\nlaw: m.words\nold: y\nnew: z\nfile: specs/S.antt\nold: u\nnew:\n";
        let (found, faults) = programs("crates/a/must-fail/both.edit", text);
        assert!(faults.is_empty(), "{faults:?}");
        let [one, two] = &found[..] else {
            panic!("{found:?}")
        };
        assert_eq!((one.name.as_str(), one.of_crate.as_str()), ("one", "a"));
        assert_eq!(
            (one.functions.join(" "), two.laws.join(" ")),
            ("f".into(), "l m".into())
        );
        assert_eq!(one.pairs[0].old, "    x: 1");
        let paths: Vec<&str> = two.pairs.iter().map(|pair| pair.path.as_str()).collect();
        assert_eq!(paths, ["crates/a/src/lib.rt", "crates/a/specs/S.antt"]);
        assert_eq!(two.pairs[1].new, "");
    }

    #[test]
    fn what_is_not_whole_is_told() {
        let faults = |text| programs("crates/a/must-fail/b.edit", text).1;
        assert_eq!(faults("wrong: a\nold: x\n").len(), 1);
        assert_eq!(faults("wrong: a\nnew: x\n").len(), 1);
        assert_eq!(
            faults("old: x\nnew: y\nwrong: a\n"),
            ["crates/a/must-fail/b.edit:2: this belongs to no `wrong:`"]
        );
    }
}
