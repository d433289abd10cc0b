//! The entries of a line, before they are read as numbers.

/// A piece of a line that should be a number, and its column from 1.
#[derive(Debug, PartialEq)]
pub struct Entry<'a> {
    pub column: usize,
    pub token: &'a str,
}

/// The entries of a line: blanks, a comma or both stand between them. What stands in brackets is not
/// taken apart. Where a comma has no number before it, its column is the error.
pub fn entries(line: &str) -> Result<Vec<Entry<'_>>, usize> {
    let mut found = Vec::new();
    let mut rest = line.trim_start();
    while !rest.is_empty() {
        let before = &line[..line.len() - rest.len()];
        let column = before.chars().count() + 1;
        if rest.starts_with(',') {
            return Err(column);
        }
        let (token, behind) = rest.split_at(length(rest));
        found.push(Entry { column, token });
        let behind = behind.trim_start();
        rest = behind.strip_prefix(',').unwrap_or(behind).trim_start();
    }
    Ok(found)
}

/// The bytes of the entry that a text begins with. A bracket that is not closed goes on to the end.
fn length(text: &str) -> usize {
    let closed = match text.starts_with('(') {
        true => text.find(')').unwrap_or(text.len()),
        false => 0,
    };
    let separates = |character: char| character.is_whitespace() || character == ',';
    let behind = text[closed..].find(separates);
    behind.map_or(text.len(), |length| closed + length)
}

#[cfg(test)]
mod tests {
    use super::*;

    fn tokens(line: &str) -> Vec<(usize, &str)> {
        let found = entries(line).unwrap();
        found
            .iter()
            .map(|entry| (entry.column, entry.token))
            .collect()
    }

    #[test]
    fn blanks_and_commas_separate() {
        let expected = vec![(2, "1"), (4, "2i"), (9, "3-4j"), (16, "5")];
        assert_eq!(tokens(" 1 2i , 3-4j,\t 5"), expected);
        assert_eq!(tokens("1,2,"), [(1, "1"), (3, "2")], "a comma at the end");
        assert_eq!(tokens(" \t "), []);
    }

    #[test]
    fn brackets_hold_together() {
        let expected = vec![(1, "(1 + 2i)"), (11, "( 3 )"), (17, "(4)5")];
        assert_eq!(tokens("(1 + 2i), ( 3 ) (4)5"), expected);
        assert_eq!(tokens("1 (2 3"), [(1, "1"), (3, "(2 3")]);
    }

    #[test]
    fn columns_count_characters() {
        assert_eq!(tokens("\u{e9} 7"), [(1, "\u{e9}"), (3, "7")]);
    }

    #[test]
    fn a_comma_needs_a_number_before_it() {
        assert_eq!(entries(", 1"), Err(1));
        assert_eq!(entries("1, ,2"), Err(4));
    }
}
