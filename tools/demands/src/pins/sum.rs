//! A short sum of a promise's text, by which the page shows that the text is what it was. It guards
//! against a change that nobody saw, not against one that somebody wants to hide.
use super::place::Span;
use crate::scan::Texts;

/// FNV-1a with 64 bits: where it starts, and what each byte multiplies it by.
const START: u64 = 0xcbf2_9ce4_8422_2325;
const FACTOR: u64 = 0x0100_0000_01b3;

/// The sum of what stands in some lines, by eight digits. Comments and blanks do not count, nor does
/// the order of the spans.
pub fn sum(texts: &Texts, spans: &[Span]) -> String {
    let mut spans: Vec<&Span> = spans.iter().collect();
    spans.sort_by_key(|span| (&span.path, span.lines.start));
    let words = spans.into_iter().flat_map(|span| words(texts, span));
    let bytes = words.flat_map(|word| word.bytes().chain([b' ']));
    let sum = bytes.fold(START, |sum, byte| {
        (sum ^ u64::from(byte)).wrapping_mul(FACTOR)
    });
    format!("{:08x}", sum >> 32)
}

fn words<'a>(texts: &'a Texts, span: &Span) -> Vec<&'a str> {
    let text = texts.get(&span.path).map_or("", String::as_str);
    let lines = text.lines().skip(span.lines.start).take(span.lines.len());
    let said = lines.filter(|line| !line.trim_start().starts_with("--"));
    said.flat_map(str::split_whitespace).collect()
}

#[cfg(test)]
mod tests {
    use super::*;

    fn of(text: &str, lines: std::ops::Range<usize>) -> String {
        let texts = [("a".to_string(), text.to_string())].into();
        let path = "a".to_string();
        sum(&texts, &[Span { path, lines }])
    }

    #[test]
    fn words_count_and_nothing_else() {
        let expected = of("one two\nthree", 0..2);
        assert_eq!(of("-- why\n  one\n\n  two three\nfour", 0..4), expected);
        assert_ne!(of("one two\nfour", 0..2), expected);
        assert_ne!(of("one twothree", 0..1), expected);
        assert_eq!(expected.len(), 8);
    }

    #[test]
    fn the_order_of_the_spans_does_not_count() {
        let texts = [("a".to_string(), "one\ntwo".to_string())].into();
        let span = |line: usize| Span {
            path: "a".to_string(),
            lines: line..line + 1,
        };
        let sums = [[span(0), span(1)], [span(1), span(0)]].map(|spans| sum(&texts, &spans));
        assert_eq!(sums[0], sums[1]);
    }
}
