//! A strict reader of pages: nothing else than the specified layout is read, so what a page says
//! could be said in no other way.

use reference::matrix::REAL_SIZE;

/// Columns of a number.
const COLUMNS: usize = 12;

/// What a page says.
#[derive(Debug, Clone, PartialEq, Eq)]
pub enum Page {
    /// R's words, row by row.
    Words(Vec<i32>),
    /// The number of a refusal.
    Refused(i32),
}

impl Page {
    /// The number of the refusal, or 0.
    pub fn number(&self) -> i32 {
        match self {
            Page::Words(_) => 0,
            Page::Refused(number) => *number,
        }
    }

    /// The page that says this, by Rust's own formatting.
    pub fn formatted(&self) -> String {
        let lines: Vec<&[i32]> = match self {
            Page::Words(words) => words.chunks(REAL_SIZE).collect(),
            Page::Refused(number) => vec![std::slice::from_ref(number)],
        };
        let line = |words: &[i32]| -> String {
            let words = words.iter().map(|word| format!("{word:>12}"));
            words.chain([String::from("\n")]).collect()
        };
        lines.into_iter().map(line).collect()
    }
}

/// Reads a page of one line with a number, or of 16 lines with 16 words each, or says why it cannot
/// be read.
pub fn read(page: &[u8]) -> Result<Page, String> {
    let Some(text) = page.strip_suffix(b"\n") else {
        return Err("no line feed at the end".into());
    };
    let lines: Vec<&[u8]> = text.split(|&byte| byte == b'\n').collect();
    let in_a_line = match lines.len() {
        1 => 1,
        REAL_SIZE => REAL_SIZE,
        count => return Err(format!("{count} lines")),
    };
    let mut words = Vec::new();
    for line in lines {
        if line.len() != COLUMNS * in_a_line {
            return Err(format!("{} characters in a line", line.len()));
        }
        for columns in line.chunks(COLUMNS) {
            words.push(word(columns)?);
        }
    }
    Ok(match words.as_slice() {
        [number] => Page::Refused(*number),
        _ => Page::Words(words),
    })
}

/// The word in its columns: blanks, at least one, a minus if it is negative, and digits up to the
/// last column, the first of which is 0 for the word 0 alone.
fn word(columns: &[u8]) -> Result<i32, String> {
    let shown = columns.trim_ascii_start();
    let (negative, digits) = match shown {
        [b'-', digits @ ..] => (true, digits),
        digits => (false, digits),
    };
    let is_number = match digits {
        [b'0'] => !negative,
        [b'1'..=b'9', others @ ..] => others.iter().all(u8::is_ascii_digit),
        _ => false,
    };
    let blanks = &columns[..columns.len() - shown.len()];
    let size = digits.iter().fold(0, |size, digit| {
        10 * size + i64::from(digit.wrapping_sub(b'0'))
    });
    match i32::try_from(if negative { -size } else { size }) {
        Ok(word) if is_number && !blanks.is_empty() && blanks.iter().all(|&b| b == b' ') => {
            Ok(word)
        }
        _ => Err(format!("{:?} is no word", String::from_utf8_lossy(columns))),
    }
}

#[test]
fn words_are_read_in_one_form_alone() {
    for (columns, expected) in [
        ("           0", 0),
        ("          -1", -1),
        ("       10203", 10_203),
        (" -2147483648", i32::MIN),
        ("  2147483647", i32::MAX),
    ] {
        assert_eq!(word(columns.as_bytes()), Ok(expected));
    }
    for columns in [
        "            ",
        "           -",
        "          -0",
        "          +1",
        "          07",
        "         - 7",
        "-          7",
        "          7 ",
        "7           ",
        "       7 000",
        "         0x7",
        "\t          7",
        "\n          7",
        "  2147483648",
        " -2147483649",
        "  9999999999",
        "-99999999999",
        "000000000007",
    ] {
        assert!(word(columns.as_bytes()).is_err(), "{columns:?}");
    }
}

#[test]
fn pages_are_read_in_one_layout_alone() {
    let zeros = "           0".repeat(16) + "\n";
    assert_eq!(
        read(zeros.repeat(16).as_bytes()),
        Ok(Page::Words(vec![0; 256]))
    );
    assert_eq!(read(b"           8\n"), Ok(Page::Refused(8)));
    for page in [
        String::new(),
        "\n".into(),
        "           8".into(),
        "           8\n\n".into(),
        "           8\r\n".into(),
        "\n           8\n".into(),
        zeros.clone(),
        zeros.repeat(15),
        zeros.repeat(17),
        zeros.repeat(16) + "\n",
        zeros.repeat(16).trim_end().into(),
        zeros.repeat(16).replace('\n', " \n"),
        zeros.repeat(16).replace("\n ", "\n"),
        "           0".repeat(256) + "\n",
    ] {
        assert!(read(page.as_bytes()).is_err(), "{page:?}");
    }
}
