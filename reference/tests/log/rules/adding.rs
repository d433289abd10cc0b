//! Adding an entry by other rules.

use reference::log::{EntryKind, LogReply};

use super::Rule;
use crate::common::log::Call;
use crate::logs::HEAD;

/// What is handed over.
struct Handed<'a> {
    kind: u32,
    day: u32,
    body: &'a [u8],
    used: usize,
}

impl Rule {
    pub fn add(self, call: &Call, buffer: &mut Vec<u8>) -> LogReply {
        let Call::Add {
            kind,
            day,
            body,
            used,
        } = call
        else {
            unreachable!("only entries are added");
        };
        let handed = Handed {
            kind: *kind,
            day: *day,
            body,
            used: self.used(*used, buffer),
        };
        let mut order = self.order().into_iter();
        let failing = order.find(|number| self.fails(*number, &handed, buffer));
        match (self, failing) {
            (Rule::AddSweeps, None | Some(17)) | (Rule::FullSweeps, Some(17)) => {
                swept_first(&handed, buffer)
            }
            (_, None) => self.put(&handed, buffer),
            (_, Some(number)) => self.refuse(number, &handed, buffer),
        }
    }

    fn order(self) -> [u8; 4] {
        match self {
            Rule::Order(order) => order,
            _ => [16, 1, 2, 17],
        }
    }

    fn fails(self, number: u8, handed: &Handed, buffer: &[u8]) -> bool {
        match number {
            16 => self.run(handed.used, buffer).is_none(),
            1 => self.kind(handed.kind).is_none() || self.body_fails(handed),
            2 => !self.is_length(handed),
            _ => !self.fits(handed, buffer.len()),
        }
    }

    fn body_fails(self, Handed { kind, body, .. }: &Handed) -> bool {
        match (self, kind, body) {
            (Rule::ResultTested, 5, [first, ..]) => *first != 2,
            (Rule::RefusalTested, 6, [number]) => !(1..=17).contains(number),
            (Rule::HeardTested, 7, [heard]) => *heard == 0,
            _ => false,
        }
    }

    /// For a number that is no kind, a length that any kind has will do.
    fn is_length(self, Handed { kind, body, .. }: &Handed) -> bool {
        let kinds: Vec<EntryKind> = match self.kind(*kind) {
            Some(kind) => vec![kind],
            None => EntryKind::ALL.to_vec(),
        };
        let mut lengths = kinds.into_iter().map(|kind| self.body_bytes(kind));
        lengths.any(|length| match self {
            Rule::LongerBody => body.len() >= length,
            Rule::ShorterBody => body.len() <= length,
            _ => body.len() == length,
        })
    }

    fn fits(self, Handed { body, used, .. }: &Handed, bytes: usize) -> bool {
        let entry = match self {
            Rule::HeadForgotten => body.len(),
            Rule::ResultRoom => HEAD + EntryKind::Result.body_bytes(),
            _ => HEAD + body.len(),
        };
        let (used, bytes) = (*used as u128, bytes as u128);
        let sum = used + entry as u128;
        match self {
            Rule::ExactRefused => sum < bytes,
            Rule::OneOver => sum <= bytes + 1,
            Rule::UsedForgotten => entry as u128 <= bytes,
            Rule::SumBits(bits) => sum % (1 << bits) <= bytes,
            _ => sum <= bytes,
        }
    }

    fn entry(
        self,
        Handed {
            kind, day, body, ..
        }: &Handed,
    ) -> Vec<u8> {
        let day = match self {
            Rule::LowByteFirst => day.to_le_bytes(),
            Rule::StoredBits(bits) => (day % (1 << bits)).to_be_bytes(),
            _ => day.to_be_bytes(),
        };
        [&[*kind as u8][..], &day, body].concat()
    }

    /// Where in the used bytes the entry is put.
    fn place(self, handed: &Handed, buffer: &[u8]) -> usize {
        let spans = self.run(handed.used, buffer).unwrap_or_default();
        match self {
            Rule::InFront => 0,
            Rule::ByDay => {
                let mut later = spans.iter().filter(|span| span.day > handed.day);
                later.next().map_or(handed.used, |span| span.start)
            }
            _ => handed.used,
        }
    }

    /// Puts the entry among the used bytes. Where a rule has accepted what does not fit, the buffer
    /// grows, which no buffer does.
    fn put(self, handed: &Handed, buffer: &mut Vec<u8>) -> LogReply {
        let entry = self.entry(handed);
        let used = handed.used.min(buffer.len());
        if self == Rule::NoDoubles && buffer[..used].ends_with(&entry) {
            return LogReply { number: 0, used };
        }
        let place = self.place(handed, buffer).min(used);
        let end = used + entry.len();
        buffer.resize(buffer.len().max(end), 0);
        buffer.copy_within(place..used, place + entry.len());
        buffer[place..][..entry.len()].copy_from_slice(&entry);
        let answered = match self {
            Rule::PlaceAnswered => place,
            Rule::LengthAnswered => entry.len(),
            _ => end,
        };
        LogReply {
            number: 0,
            used: answered,
        }
    }

    fn refuse(self, number: u8, handed: &Handed, buffer: &mut [u8]) -> LogReply {
        if self == Rule::RefusedWrites && number == 17 {
            let room = &mut buffer[handed.used..];
            let entry = self.entry(handed);
            room.copy_from_slice(&entry[..room.len()]);
        }
        self.refused(number, handed.used)
    }

    /// What a refused call answers that was handed a used count.
    pub fn refused(self, number: u8, used: usize) -> LogReply {
        let used = match self {
            Rule::CountGivenBack => used,
            _ => 0,
        };
        LogReply { number, used }
    }
}

/// Sweeps on the entry's day before it is added, or refused after all, which leaves the log as it was.
fn swept_first(handed: &Handed, buffer: &mut Vec<u8>) -> LogReply {
    let stated = Rule::Stated;
    let mut swept = buffer.clone();
    let used = stated.sweep(handed.day, handed.used, &mut swept).used;
    let handed = Handed { used, ..*handed };
    if !stated.fits(&handed, swept.len()) {
        return stated.refused(17, used);
    }
    *buffer = swept;
    stated.put(&handed, buffer)
}
