//! What `docs/demands.txt` cites: the names of its carriers, and `{D name}` in its other text.
use crate::kind::Kind;
use crate::source::Block;
use std::ops::Range;

/// The names that are cited as carriers of a kind, each with its line.
pub fn cited(blocks: &[Block], kind: Kind) -> Vec<(usize, &str)> {
    let mut found = Vec::new();
    for block in blocks {
        match block {
            Block::Section { .. } | Block::Offered(..) => {}
            Block::Text(line, lines) => {
                for (at, text) in lines.iter().enumerate() {
                    found.extend(in_text(line + at, text, kind));
                }
            }
            Block::Sentence(sentence) => {
                for carrier in &sentence.carriers {
                    if carrier.kind == kind {
                        let names = carrier.names.iter();
                        found.extend(names.map(|name| (carrier.line, name.as_str())));
                    }
                    found.extend(in_text(carrier.line, &carrier.remark, kind));
                }
            }
        }
    }
    found
}

fn in_text(line: usize, text: &str, kind: Kind) -> impl Iterator<Item = (usize, &str)> {
    let of_kind = move |(_, other, _): &(Range<usize>, Kind, &str)| *other == kind;
    let found = references(text).into_iter().filter(of_kind);
    found.map(move |(_, _, name)| (line, name))
}

/// The references of a text, `{D name}`, and where they stand.
pub fn references(text: &str) -> Vec<(Range<usize>, Kind, &str)> {
    let whole = |at: usize| {
        let end = text[at..].find('}')? + at + 1;
        let (kind, name) = reference(&text[at..end])?;
        Some((at..end, kind, name))
    };
    let starts = text.match_indices('{');
    starts.filter_map(|(at, _)| whole(at)).collect()
}

/// `{D name}` taken apart.
fn reference(text: &str) -> Option<(Kind, &str)> {
    let (letter, name) = text.strip_prefix('{')?.strip_suffix('}')?.split_once(' ')?;
    let mut letters = letter.chars();
    let kind = Kind::of(letters.next()?).filter(|kind| *kind != Kind::None)?;
    (letters.next().is_none() && !name.is_empty() && !name.contains(' ')).then_some((kind, name))
}

#[cfg(test)]
mod tests {
    use super::*;
    use crate::source;

    #[test]
    fn carriers_remarks_and_text() {
        let text = "Of {T a} {x} {D b} {T no end\n\n> one\nT c d -- as {T e}\nD f\n";
        let blocks = source::parse(text).unwrap();
        let expected = [(1, "a"), (4, "c"), (4, "d"), (4, "e")];
        assert_eq!(cited(&blocks, Kind::Theorem), expected);
        assert_eq!(cited(&blocks, Kind::Definition), [(1, "b"), (5, "f")]);
    }
}
