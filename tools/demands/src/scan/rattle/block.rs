//! An `impl` or a `trait` of `src/`, and how a log names the functions in it.
use super::identifier;

pub struct Block {
    /// what a log has before its functions: `Word` of `impl Word`, `WordLane` of `impl Lane for Word`
    pub name: String,
    /// whether its functions keep the promise of a trait, whose clauses speak of ghost members
    pub promised: bool,
    /// whether its functions are a trait's, for a type that others may use
    pub public: bool,
}

impl Block {
    /// The block that some lines are, if they are one. A type may be hidden in its file.
    pub fn new(lines: &[&str], hidden: impl Fn(&str) -> bool) -> Option<Block> {
        let head = lines[0].trim_end_matches([' ', '{']);
        let plain = |name| Block {
            name,
            promised: false,
            public: false,
        };
        let (mark, rest) = head.split_at(head.find([' ', '<'])?);
        match mark {
            "impl" => {}
            "trait" => return Some(plain(identifier(rest.trim()))),
            _ if mark.starts_with("pub") => {
                let name = rest.trim().strip_prefix("trait ")?;
                return Some(plain(identifier(name)));
            }
            _ => return None,
        }
        let rest = without_parameters(rest);
        let Some((of_trait, of)) = rest.split_once(" for ") else {
            return Some(plain(identifier(rest)));
        };
        Some(Block {
            name: logged(of) + &logged(of_trait),
            promised: lines.iter().any(|line| line.starts_with("    ghost ")),
            public: !hidden(&identifier(of)),
        })
    }
}

/// What follows the parameters of an `impl`.
fn without_parameters(text: &str) -> &str {
    let mut open = 0;
    let outside = |c: char| {
        open += i32::from(c == '<') - i32::from(c == '>');
        c == ' ' && open == 0
    };
    text.find(outside).map_or(text, |at| text[at..].trim())
}

/// A type as a log has it: `ResultUsizeRefusal` of `Result<usize, a::Refusal>`, `ArrayU8aSIZE` of
/// `[u8; a::SIZE]`, whose length keeps all of its path.
fn logged(text: &str) -> String {
    let text = text.replace('[', "Array ");
    let mut found = String::new();
    for (at, piece) in text.split(';').enumerate() {
        let words = piece.split(|c: char| !c.is_alphanumeric() && !"_:'".contains(c));
        let words = words.filter(|word| !word.is_empty());
        for (n, word) in words.enumerate().filter(|(_, word)| !is_parameter(word)) {
            let length = at > 0 && n == 0;
            found += &if length { letters(word) } else { named(word) };
        }
    }
    found
}

/// Whether a word is a lifetime, or one letter as the parameters of an `impl` are.
fn is_parameter(word: &str) -> bool {
    word.starts_with('\'') || word.len() == 1 && word.starts_with(|c: char| c.is_uppercase())
}

/// The last part of a path, with a capital letter.
fn named(path: &str) -> String {
    let last = letters(path.rsplit("::").next().unwrap_or(path));
    let mut rest = last.chars();
    let first = rest.next().into_iter().flat_map(char::to_uppercase);
    first.chain(rest.clone()).collect()
}

fn letters(word: &str) -> String {
    word.chars().filter(|c| c.is_alphanumeric()).collect()
}

#[cfg(test)]
mod tests {
    use super::*;

    #[test]
    fn blocks_and_their_names() {
        for (line, expected) in [
            ("impl Word {", "Word"),
            ("impl<W: Lane, const N: usize> Rows<W, N> {", "Rows"),
            ("impl Lane for Word {", "WordLane"),
            ("impl fmt::Display for Rows<'_> {", "RowsDisplay"),
            ("pub trait Lane: Copy {", "Lane"),
            ("pub(crate) trait Lane {", "Lane"),
        ] {
            let block = Block::new(&[line], |_| false);
            assert_eq!(block.unwrap().name, expected);
        }
        for line in ["fn f<W: Lane>() {", "pub struct Word {", "}"] {
            assert!(Block::new(&[line], |_| false).is_none(), "{line}");
        }
    }

    #[test]
    fn promises_of_traits() {
        let said = |lines: &[&str]| {
            let block = Block::new(lines, |name| name == "Hidden").unwrap();
            (block.promised, block.public)
        };
        let ghost = "    ghost number = { x };";
        assert_eq!(said(&["impl Lane for Word {", ghost]), (true, true));
        assert_eq!(said(&["impl Lane for Hidden {", ghost]), (true, false));
        assert_eq!(said(&["impl Display for Word {"]), (false, true));
        assert_eq!(said(&["impl Word {"]), (false, false));
    }

    #[test]
    fn types_as_logs_name_them() {
        for (text, expected) in [
            ("Result<usize, a::Refusal>", "ResultUsizeRefusal"),
            ("[u8; a_b::SIZE]", "ArrayU8abSIZE"),
            ("Result<[Weight; 8], Refusal>", "ResultArrayWeight8Refusal"),
            ("Rows<'_, W>", "Rows"),
        ] {
            assert_eq!(logged(text), expected);
        }
    }
}
