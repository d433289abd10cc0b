//! What stands in a log, by each rule.

use reference::log::EntryKind;

use super::Rule;
use crate::logs::HEAD;

/// Where an entry stands, and what its head says.
#[derive(Debug, Clone, Copy)]
pub struct Span {
    pub start: usize,
    pub end: usize,
    pub kind: EntryKind,
    pub day: u32,
}

impl Rule {
    pub fn kind(self, number: u32) -> Option<EntryKind> {
        match self {
            Rule::KindBits(bits) => EntryKind::of(number % (1 << bits)),
            Rule::AlsoKind(kind) if kind == number => Some(EntryKind::Heard),
            _ => EntryKind::of(number),
        }
    }

    pub fn body_bytes(self, kind: EntryKind) -> usize {
        match self {
            Rule::BodyOf(of, bytes) if of == kind => bytes,
            _ => kind.body_bytes(),
        }
    }

    pub fn day(self, bytes: [u8; 4]) -> u32 {
        match self {
            Rule::LowByteFirst => u32::from_le_bytes(bytes),
            _ => u32::from_be_bytes(bytes),
        }
    }

    /// The used count that counts in the place of this one.
    pub fn used(self, used: usize, buffer: &[u8]) -> usize {
        match self {
            Rule::UsedBits(bits) => used % (1 << bits),
            Rule::PassIgnored => used.min(buffer.len()),
            _ => used,
        }
    }

    /// The entry at a place of bytes, if a whole one stands there.
    pub fn span(self, bytes: &[u8], start: usize) -> Option<Span> {
        let kind = match self.kind(bytes[start].into()) {
            None if self == Rule::UnknownSkipped => EntryKind::Heard,
            kind => kind?,
        };
        let end = start + HEAD + self.body_bytes(kind);
        let head = bytes.get(start..end)?;
        let day = self.day([head[1], head[2], head[3], head[4]]);
        Some(Span {
            start,
            end,
            kind,
            day,
        })
    }

    /// The entries of the used bytes, if they are a whole run. What is taken for a whole entry and is
    /// none is left out.
    pub fn run(self, used: usize, buffer: &[u8]) -> Option<Vec<Span>> {
        let refused = match self {
            Rule::EmptyRefused => used == 0,
            Rule::FullRefused => used == buffer.len(),
            _ => false,
        };
        let bytes = buffer.get(..used).filter(|_| !refused)?;
        let spans = self.spans(bytes)?;
        let fits = match self {
            Rule::DaysRising => spans.is_sorted_by_key(|span| span.day),
            Rule::WholeBuffer => self.spans(buffer).is_some(),
            _ => true,
        };
        fits.then_some(spans)
    }

    fn spans(self, bytes: &[u8]) -> Option<Vec<Span>> {
        let (mut spans, mut at) = (Vec::new(), 0);
        while at < bytes.len() {
            let Some(span) = self.span(bytes, at) else {
                return self.excuses(&bytes[at..], at).then_some(spans);
            };
            at = span.end;
            spans.push(span);
        }
        Some(spans)
    }

    /// Whether bytes at a place that are no whole entry pass for the end of a run.
    fn excuses(self, rest: &[u8], at: usize) -> bool {
        let known = self.kind(rest[0].into()).is_some();
        match self {
            Rule::PassOnly => true,
            Rule::FirstOnly => at > 0,
            Rule::CutEnd => known,
            Rule::LoneKind => known && rest.len() == 1,
            Rule::LoneHead => known && rest.len() == HEAD,
            _ => false,
        }
    }
}
