//! Sweeping by other rules.

use reference::log::{EntryKind, LogReply};

use super::run::Span;
use super::Rule;

impl Rule {
    pub fn sweep(self, day: u32, used: usize, buffer: &mut [u8]) -> LogReply {
        let counted = self.used(used, buffer);
        let Some(spans) = self.run(counted, buffer) else {
            return self.refused(16, used);
        };
        let kept = self.kept(&spans, day);
        let end = if self == Rule::GapsLeft {
            kept.last().map_or(0, |span| span.end)
        } else {
            self.close(&kept, counted, buffer)
        };
        let answered = match self {
            Rule::FreedAnswered => counted - end,
            Rule::CountKept => counted,
            _ => end,
        };
        LogReply {
            number: 0,
            used: answered,
        }
    }

    fn days(self, kind: EntryKind) -> u32 {
        match (self, kind) {
            (Rule::Days(of, days), _) if of == kind => days,
            (_, EntryKind::Result) => 7,
            (_, EntryKind::Refusal) => 30,
            (_, EntryKind::Heard) => 90,
        }
    }

    /// Whether an entry is there on a day.
    fn stays(self, span: &Span, day: u32) -> bool {
        let days = self.days(span.kind);
        let [today, date, length] = [day, span.day, days].map(i64::from);
        match self {
            Rule::LastDayToo => today <= date + length,
            Rule::FutureSwept => date <= today && today < date + length,
            Rule::DistanceHeld => (today - date).abs() < length,
            Rule::SumWraps => day < span.day.wrapping_add(days),
            Rule::SumStops => day < span.day.saturating_add(days),
            Rule::AgeWraps => day.wrapping_sub(span.day) < days,
            Rule::AgeStops => day.saturating_sub(span.day) < days,
            Rule::SignedDays => {
                let [today, date] = [day, span.day].map(|day| i64::from(day as i32));
                today < date + length
            }
            Rule::SignedSum => (day as i32) < (span.day as i32).wrapping_add(days as i32),
            Rule::ComparedBits(bits) => today % (1 << bits) < date % (1 << bits) + length,
            _ => today < date + length,
        }
    }

    /// The entries that a sweep leaves, in the order that it leaves them in.
    fn kept(self, spans: &[Span], day: u32) -> Vec<Span> {
        let mut kept = Vec::new();
        let mut dropped = false;
        for (k, span) in spans.iter().enumerate() {
            let last = k + 1 == spans.len();
            let excused = match self {
                Rule::LeadingOnly => !kept.is_empty(),
                Rule::OneOnly => kept.len() < k,
                Rule::LastLeft => last,
                Rule::NextLeft => dropped,
                Rule::ResultLeft => is_last_result(spans, k),
                _ => false,
            };
            dropped = !excused && !self.stays(span, day);
            if !dropped {
                kept.push(*span);
            }
        }
        match self {
            Rule::Reversed => kept.reverse(),
            Rule::Sorted => kept.sort_by_key(|span| span.day),
            Rule::LastFills => return self.filled_from_the_end(spans, day),
            _ => {}
        }
        kept
    }

    fn filled_from_the_end(self, spans: &[Span], day: u32) -> Vec<Span> {
        let (mut kept, mut k) = (spans.to_vec(), 0);
        while k < kept.len() {
            if self.stays(&kept[k], day) {
                k += 1;
            } else {
                kept.swap_remove(k);
            }
        }
        kept
    }

    /// Puts entries one after another from the start on, and answers where they end.
    fn close(self, kept: &[Span], used: usize, buffer: &mut [u8]) -> usize {
        let entries = kept.iter().map(|span| &buffer[span.start..span.end]);
        let entries: Vec<u8> = entries.collect::<Vec<_>>().concat();
        let end = entries.len();
        buffer[..end].copy_from_slice(&entries);
        match self {
            Rule::Cleared => buffer[end..used].fill(0),
            Rule::RestMoved => buffer.copy_within(used.., end),
            _ => {}
        }
        end
    }
}

fn is_last_result(spans: &[Span], k: usize) -> bool {
    let mut results = spans[k..].iter().map(|span| span.kind == EntryKind::Result);
    results.next() == Some(true) && !results.any(|later| later)
}
