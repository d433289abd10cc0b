//! Reading an entry by other rules.

use reference::log::EntryReply;

use super::Rule;
use crate::logs::HEAD;

impl Rule {
    pub fn next(self, at: usize, used: usize, buffer: &[u8]) -> EntryReply {
        let used = match self {
            Rule::UsedUntested => used.min(buffer.len()),
            _ => self.used(used, buffer),
        };
        self.read(at, used, buffer).unwrap_or(EntryReply {
            number: 16,
            next: if self == Rule::PlaceGivenBack { at } else { 0 },
            ..EntryReply::default()
        })
    }

    fn read(self, at: usize, used: usize, buffer: &[u8]) -> Option<EntryReply> {
        let bytes = buffer.get(..used)?;
        if at == used || self == Rule::PastIsEnd && at > used {
            return self.end(used);
        }
        let bytes = match self {
            Rule::CutByUsed if at < used => buffer,
            _ => bytes,
        };
        let refused = match self {
            Rule::WholeRun => self.run(used, buffer).is_none(),
            Rule::StartsOnly => self.run(at, buffer).is_none(),
            _ => false,
        };
        if refused || at >= bytes.len() {
            return None;
        }
        let span = self.span(bytes, at)?;
        let (body, next) = match self {
            Rule::BodyFromEntry => (HEAD, span.end),
            Rule::BodyAtEntry => (at, span.end),
            Rule::LengthAsNext => (at + HEAD, span.end - at),
            _ => (at + HEAD, span.end),
        };
        Some(EntryReply {
            number: 0,
            kind: buffer[at].into(),
            day: span.day,
            body,
            body_len: span.end - at - HEAD,
            next,
        })
    }

    fn end(self, used: usize) -> Option<EntryReply> {
        let next = if self == Rule::EndAtZero { 0 } else { used };
        (self != Rule::EndRefused).then_some(EntryReply {
            next,
            ..EntryReply::default()
        })
    }
}
