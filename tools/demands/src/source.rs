//! `docs/demands.txt`: sections, and in each the sentences with their carriers.
//!
//! ```text
//! @offered load run              the calls offered to others
//!
//! == D1 Demand 1                 a section: what its sentences' ids begin with, and its title
//!
//! Any other text is Markdown. {D load_of} in it becomes a link to that definition.
//!
//! > "every call shall end"       a sentence; a long one goes on in a second such line
//! C load run -- both contracts   a carrier: its kind, one name or more, and perhaps a remark
//! N the purpose                  a carrier that needs no name
//!     goes on here               lines that are set in go on with the remark
//! ```
//!
//! An empty line ends a sentence; a line that begins with % is a comment.
use crate::fault::Fault;
use crate::kind::Kind;

#[derive(Debug, PartialEq)]
pub enum Block {
    Section {
        line: usize,
        id: String,
        title: String,
    },
    /// calls that are offered to others, and the line that names them
    Offered(usize, Vec<String>),
    /// lines of Markdown, with the number of the first
    Text(usize, Vec<String>),
    Sentence(Sentence),
}

#[derive(Debug, PartialEq)]
pub struct Sentence {
    pub line: usize,
    pub text: String,
    pub carriers: Vec<Carrier>,
}

#[derive(Debug, PartialEq)]
pub struct Carrier {
    pub line: usize,
    pub kind: Kind,
    pub names: Vec<String>,
    pub remark: String,
}

pub fn parse(text: &str) -> Result<Vec<Block>, Vec<Fault>> {
    let mut blocks = Vec::new();
    let mut faults = Vec::new();
    let mut in_sentence = false;
    for (at, text) in text.lines().enumerate() {
        let (line, text) = (at + 1, text.trim_end());
        if text.starts_with('%') {
            continue;
        }
        if let Some(words) = text.strip_prefix('@') {
            in_sentence = false;
            match offered(words) {
                Ok(names) => blocks.push(Block::Offered(line, names)),
                Err(what) => faults.push(Fault { line, what }),
            }
        } else if let Some(title) = text.strip_prefix("== ") {
            in_sentence = false;
            blocks.push(section(line, title.trim()));
        } else if let Some(sentence) = text.strip_prefix("> ") {
            add_sentence(&mut blocks, line, sentence.trim(), in_sentence);
            in_sentence = true;
        } else if in_sentence && !text.is_empty() {
            if let Err(what) = add_carrier(&mut blocks, line, text) {
                faults.push(Fault { line, what });
            }
        } else {
            in_sentence = false;
            add_text(&mut blocks, line, text);
        }
    }
    if faults.is_empty() {
        Ok(blocks)
    } else {
        Err(faults)
    }
}

/// The names after `@offered`, the one word that may follow an @.
fn offered(text: &str) -> Result<Vec<String>, String> {
    let mut words = text.split_whitespace();
    match words.next() {
        Some("offered") => Ok(words.map(String::from).collect()),
        _ => Err("`@offered` is all that may begin with an @".to_string()),
    }
}

fn section(line: usize, text: &str) -> Block {
    let (id, title) = text.split_once(' ').unwrap_or((text, text));
    let (id, title) = (id.to_string(), title.trim().to_string());
    Block::Section { line, id, title }
}

/// A new sentence, or the second line of one that has no carrier yet.
fn add_sentence(blocks: &mut Vec<Block>, line: usize, text: &str, goes_on: bool) {
    match blocks.last_mut() {
        Some(Block::Sentence(sentence)) if goes_on && sentence.carriers.is_empty() => {
            sentence.text.push(' ');
            sentence.text.push_str(text);
        }
        _ => blocks.push(Block::Sentence(Sentence {
            line,
            text: text.to_string(),
            carriers: Vec::new(),
        })),
    }
}

fn add_text(blocks: &mut Vec<Block>, line: usize, text: &str) {
    match blocks.last_mut() {
        Some(Block::Text(_, lines)) => lines.push(text.to_string()),
        _ if text.is_empty() => {}
        _ => blocks.push(Block::Text(line, vec![text.to_string()])),
    }
}

/// A carrier of the last sentence, or more of the last carrier's remark.
fn add_carrier(blocks: &mut [Block], line: usize, text: &str) -> Result<(), String> {
    let Some(Block::Sentence(sentence)) = blocks.last_mut() else {
        return Err("this carrier stands under no sentence".to_string());
    };
    if text.starts_with(' ') {
        let last = sentence
            .carriers
            .last_mut()
            .ok_or("this goes on with a remark, and there is no carrier before it")?;
        last.remark = format!("{} {}", last.remark, text.trim())
            .trim()
            .to_string();
        return Ok(());
    }
    sentence.carriers.push(carrier(line, text)?);
    Ok(())
}

fn carrier(line: usize, text: &str) -> Result<Carrier, String> {
    let (letter, rest) = text.split_once(' ').unwrap_or((text, ""));
    let kind = match letter.chars().collect::<Vec<_>>()[..] {
        [letter] => Kind::of(letter),
        _ => None,
    };
    let kind = kind.ok_or_else(|| {
        format!("`{letter}` is no kind of carrier: D, C, T, X, R or N begins it, or > a sentence")
    })?;
    let (names, remark) = if kind == Kind::None {
        ("", rest)
    } else {
        rest.split_once(" -- ").unwrap_or((rest, ""))
    };
    let names: Vec<String> = names.split_whitespace().map(String::from).collect();
    match (kind, names.is_empty(), remark.is_empty()) {
        (Kind::None, _, true) => {
            Err("N wants a remark that says why there is no carrier".to_string())
        }
        (Kind::None, ..) | (_, false, _) => Ok(Carrier {
            line,
            kind,
            names,
            remark: remark.trim().to_string(),
        }),
        _ => Err(format!("{letter} wants a name")),
    }
}

#[cfg(test)]
mod tests {
    use super::*;

    const TEXT: &str = r#"% a comment
== D1 Demand 1

Some text.

> "one
> two"
C load run -- both
    of them
N why

> three
X wrong
"#;

    #[test]
    fn sections_and_text() {
        let blocks = parse(TEXT).unwrap();
        let (id, title) = ("D1".to_string(), "Demand 1".to_string());
        assert_eq!(blocks[0], Block::Section { line: 2, id, title });
        assert_eq!(
            blocks[1],
            Block::Text(4, vec!["Some text.".into(), "".into()])
        );
        assert_eq!(blocks.len(), 4);
    }

    #[test]
    fn sentences_and_carriers() {
        let blocks = parse(TEXT).unwrap();
        let Block::Sentence(sentence) = &blocks[2] else {
            panic!("{blocks:?}")
        };
        assert_eq!((sentence.line, sentence.text.as_str()), (6, "\"one two\""));
        let [carrier, other] = &sentence.carriers[..] else {
            panic!("{sentence:?}")
        };
        assert_eq!((carrier.line, carrier.kind), (8, Kind::Contract));
        assert_eq!(carrier.names, ["load", "run"]);
        assert_eq!(carrier.remark, "both of them");
        assert_eq!(other.remark, "why");
    }

    #[test]
    fn faults_have_their_line() {
        let faults = parse("> a\nD\nQ x\nN\n").unwrap_err();
        assert_eq!(
            faults.iter().map(|fault| fault.line).collect::<Vec<_>>(),
            [2, 3, 4]
        );
        assert_eq!(parse("> a\n  more\n").unwrap_err()[0].line, 2);
    }

    #[test]
    fn offered_calls() {
        let names = ["load", "run"].map(String::from).to_vec();
        assert_eq!(
            parse("@offered load run\n").unwrap(),
            [Block::Offered(1, names)]
        );
        assert_eq!(parse("@other load\n").unwrap_err()[0].line, 1);
    }
}
