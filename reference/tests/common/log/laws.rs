//! What each call of the log keeps to, whatever the reference says.

use reference::log::{EntryReply, LogReply};

use super::{Call, Made, Reply};

/// Bytes of an entry before its body: the kind and the day.
const HEAD: usize = 5;

/// What is wrong with a call, if anything is.
pub fn complaint(made: &Made) -> Option<&'static str> {
    let Made { before, after, .. } = made;
    if made.reply.number() != 0 {
        return complaint_of_refusal(made);
    }
    match (&made.call, made.reply) {
        (Call::Sweep { used, .. }, Reply::Log(reply)) if reply.used > *used => {
            Some("a sweep used more bytes than before")
        }
        (Call::Sweep { .. }, Reply::Log(reply)) if before[reply.used..] != after[reply.used..] => {
            Some("a sweep changed bytes from the used count on")
        }
        (Call::Sweep { used, .. }, Reply::Log(reply)) if reply.used == *used && before != after => {
            Some("a sweep that dropped nothing changed something")
        }
        (call @ Call::Add { .. }, Reply::Log(reply)) if !is_added(call, reply, before, after) => {
            Some("more or less than the entry was added")
        }
        (Call::Next { .. }, _) if before != after => Some("reading changed something"),
        (Call::Next { at, used }, Reply::Entry(reply)) if !is_read(*at, *used, reply) => {
            Some("an entry that cannot stand at its place, or an end that is none")
        }
        _ => None,
    }
}

fn complaint_of_refusal(made: &Made) -> Option<&'static str> {
    let number = made.reply.number();
    let nothing = match made.reply {
        Reply::Log(reply) => {
            let used = 0;
            reply == LogReply { number, used }
        }
        Reply::Entry(reply) => {
            let nothing = EntryReply::default();
            reply == EntryReply { number, ..nothing }
        }
    };
    let numbers: &[u8] = match made.call {
        Call::Add { .. } => &[16, 1, 2, 17],
        Call::Sweep { .. } | Call::Next { .. } => &[16],
    };
    if !nothing {
        Some("a refusal answered more than its number")
    } else if made.before != made.after {
        Some("a refused call changed something")
    } else if !numbers.contains(&number) {
        Some("a number that the call does not give")
    } else {
        None
    }
}

/// Whether the bytes behind the used ones are those of the entry, and all others as before.
fn is_added(call: &Call, reply: LogReply, before: &[u8], after: &[u8]) -> bool {
    let Call::Add {
        kind,
        day,
        body,
        used,
    } = call
    else {
        return false;
    };
    let day = [24, 16, 8, 0].map(|place| (day >> place) as u8);
    let entry = [&[*kind as u8][..], &day, body].concat();
    reply.used == used + HEAD + body.len()
        && after[*used..reply.used] == entry
        && after[..*used] == before[..*used]
        && after[reply.used..] == before[reply.used..]
}

/// Whether the places fit each other, or nothing but the used count is answered at the end.
fn is_read(at: usize, used: usize, reply: EntryReply) -> bool {
    let length = match reply.kind {
        0 => None,
        5 => Some(2_049),
        _ => Some(1),
    };
    match length {
        None => {
            let nothing = EntryReply::default();
            at == used
                && reply
                    == EntryReply {
                        next: used,
                        ..nothing
                    }
        }
        Some(length) => {
            let places = [reply.body, reply.body_len, reply.next];
            (5..=7).contains(&reply.kind)
                && places == [at + HEAD, length, at + HEAD + length]
                && reply.next <= used
        }
    }
}
