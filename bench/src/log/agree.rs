//! Before anything is timed: a contender answers what the engine answers, in every field of the reply
//! and every byte of the buffer, where a call is accepted and where it is refused.

use hubqr::ffi::{LogEntry, LogReply};
use reference::random::Random;

use super::calls::{any_day, damaged, Call};
use super::contenders::{Contender, ENGINE};

/// Calls in a row on one log, of which each takes the used count that the last accepted one answered,
/// in buffers of so many bytes.
const CALLS: usize = 500;
const BUFFERS: [usize; 6] = [0, 6, 100, 2054, 10_000, 40_000];

/// Logs that were damaged or cut, on each of which all calls are made.
const DAMAGED: usize = 2000;

/// Where a contender first disagrees with the engine, if it does.
pub fn check(who: &Contender, seed: u64) -> Result<(), String> {
    let mut random = Random::new(seed);
    for bytes in BUFFERS {
        history(who, bytes, &mut random)?;
    }
    for _ in 0..DAMAGED {
        let (used, buffer) = damaged(&mut random);
        let day = any_day(&mut random, 1000);
        let place = random.below(used + 3);
        for call in [
            Call::Add(7, day, vec![1], used),
            Call::Sweep(day, used),
            Call::Next(0, used),
            Call::Next(place, used),
            Call::any(&mut random, 1000, used, buffer.len()),
        ] {
            compare(who, &call, &buffer)?;
        }
    }
    Ok(())
}

/// A log from no entry on, in which days pass. After each call all its entries are read.
fn history(who: &Contender, bytes: usize, random: &mut Random) -> Result<(), String> {
    let (mut buffer, mut used, mut day) = (vec![0xa5; bytes], 0, 0);
    for _ in 0..CALLS {
        day += random.below(3) as u32;
        let call = Call::any(random, day, used, bytes);
        let outcome = compare(who, &call, &buffer)?;
        if let (Reply::Log(LogReply { number: 0, used: u }), true) =
            (&outcome.reply, call.used() == used)
        {
            (used, buffer) = (*u, outcome.buffer);
        }
        let mut at = 0;
        while at < used {
            at = match compare(who, &Call::Next(at, used), &buffer)?.reply {
                Reply::Entry(entry) => entry.next,
                Reply::Log(_) => unreachable!("an entry is answered"),
            };
        }
    }
    Ok(())
}

#[derive(PartialEq)]
enum Reply {
    Log(LogReply),
    Entry(LogEntry),
}

/// What a call leaves behind.
#[derive(PartialEq)]
struct Outcome {
    reply: Reply,
    buffer: Vec<u8>,
}

fn outcome(who: &Contender, call: &Call, buffer: &[u8]) -> Outcome {
    let mut buffer = buffer.to_vec();
    let reply = match *call {
        Call::Add(kind, day, ref body, used) => {
            Reply::Log((who.add)(kind, day, body, used, &mut buffer))
        }
        Call::Sweep(day, used) => Reply::Log((who.sweep)(day, used, &mut buffer)),
        Call::Next(at, used) => Reply::Entry((who.next)(at, used, &buffer)),
    };
    Outcome { reply, buffer }
}

/// What the engine makes of a call, if the contender makes the same of it.
fn compare(who: &Contender, call: &Call, buffer: &[u8]) -> Result<Outcome, String> {
    let expected = outcome(&ENGINE, call, buffer);
    match outcome(who, call, buffer) == expected {
        true => Ok(expected),
        false => Err(format!("{call:?} and {buffer:?}")),
    }
}

#[cfg(test)]
mod tests {
    use std::sync::atomic::{AtomicU32, Ordering::Relaxed};

    use super::*;

    type Add = fn(u32, u32, &[u8], usize, &mut [u8]) -> LogReply;
    type Sweep = fn(u32, usize, &mut [u8]) -> LogReply;
    type Next = fn(usize, usize, &[u8]) -> LogEntry;

    fn adds(add: Add) -> bool {
        check(&Contender { add, ..ENGINE }, 1).is_ok()
    }

    fn sweeps(sweep: Sweep) -> bool {
        check(&Contender { sweep, ..ENGINE }, 1).is_ok()
    }

    fn reads(next: Next) -> bool {
        check(&Contender { next, ..ENGINE }, 1).is_ok()
    }

    /// How often each number is answered.
    static NUMBERS: [AtomicU32; 18] = [const { AtomicU32::new(0) }; 18];

    #[test]
    fn all_numbers_are_compared() {
        let counted = |numbers: &[usize]| {
            let counts = numbers.iter().map(|&n| NUMBERS[n].swap(0, Relaxed));
            let counts: Vec<u32> = counts.collect();
            assert!(counts.iter().all(|&count| count > 50), "{counts:?}");
        };
        adds(|kind, day, body, used, buffer| {
            let reply = (ENGINE.add)(kind, day, body, used, buffer);
            NUMBERS[usize::from(reply.number)].fetch_add(1, Relaxed);
            reply
        });
        counted(&[0, 1, 2, 16, 17]);
        sweeps(|day, used, buffer| {
            let reply = (ENGINE.sweep)(day, used, buffer);
            NUMBERS[usize::from(reply.number)].fetch_add(1, Relaxed);
            reply
        });
        counted(&[0, 16]);
        reads(|at, used, buffer| {
            let entry = (ENGINE.next)(at, used, buffer);
            NUMBERS[usize::from(entry.number)].fetch_add(1, Relaxed);
            entry
        });
        counted(&[0, 16]);
    }

    /// A reply with another number in the place of one.
    fn numbered(from: u8, to: u8, mut reply: LogReply) -> LogReply {
        if reply.number == from {
            reply.number = to;
        }
        reply
    }

    #[test]
    fn wrong_entries_are_noticed() {
        assert!(adds(ENGINE.add));
        assert!(!adds(|kind, day, body, used, buffer| {
            (ENGINE.add)(kind % 256, day, body, used, buffer)
        }));
        assert!(!adds(|kind, day, body, used, buffer| {
            (ENGINE.add)(kind, day.swap_bytes(), body, used, buffer)
        }));
        assert!(!adds(|kind, day, body, used, buffer| {
            let reply = (ENGINE.add)(kind, day, body, used, buffer);
            if let Some(behind) = buffer.get_mut(reply.used) {
                *behind = 0; // as if it ended the log
            }
            reply
        }));
        assert!(!adds(|kind, day, body, used, buffer| {
            let swept = (ENGINE.sweep)(day, used, buffer);
            let used = if swept.number == 0 { swept.used } else { used };
            (ENGINE.add)(kind, day, body, used, buffer) // as if adding swept
        }));
    }

    #[test]
    fn wrong_refusals_are_noticed() {
        assert!(!adds(|kind, day, body, used, buffer| {
            let mut reply = (ENGINE.add)(kind, day, body, used, buffer);
            if reply.number > 0 {
                reply.used = used; // as if the count were given back
            }
            reply
        }));
        assert!(!adds(|kind, day, body, used, buffer| {
            let all = buffer.len().saturating_sub(1); // as if a byte had to be left
            numbered(
                16,
                17,
                (ENGINE.add)(kind, day, body, used, &mut buffer[..all]),
            )
        }));
        assert!(!adds(|kind, day, body, used, buffer| {
            match (5..8).contains(&kind) {
                true => (ENGINE.add)(kind, day, body, used, buffer),
                false => LogReply { number: 1, used: 0 }, // ahead of 16
            }
        }));
        assert!(!adds(|kind, day, body, used, buffer| {
            let room = buffer.len().saturating_sub(used);
            let reply = (ENGINE.add)(kind, day, body, used, buffer);
            let full = room < 6 && [1, 2].contains(&reply.number);
            let number = if full { 17 } else { reply.number }; // ahead of 1 and 2
            LogReply { number, ..reply }
        }));
    }

    /// Sweeps by a rule about an entry's kind and day and the sweep's day.
    fn swept_by(
        stays: impl Fn(u8, u32, u32) -> bool,
        day: u32,
        used: usize,
        buffer: &mut [u8],
    ) -> LogReply {
        let reply = (ENGINE.sweep)(0, used, buffer);
        let (mut at, mut kept) = (0, 0);
        while reply.number == 0 && at < used {
            let entry = (ENGINE.next)(at, used, buffer);
            if stays(buffer[at], entry.day, day) {
                buffer.copy_within(at..entry.next, kept);
                kept += entry.next - at;
            }
            at = entry.next;
        }
        LogReply {
            used: kept,
            ..reply
        }
    }

    fn days(kind: u8) -> u64 {
        [7, 30, 90][usize::from(kind - 5)]
    }

    #[test]
    fn wrong_days_are_noticed() {
        assert!(sweeps(|day, used, buffer| {
            let stays = |kind, dated, day| u64::from(day) < u64::from(dated) + days(kind);
            swept_by(stays, day, used, buffer)
        }));
        assert!(!sweeps(|day, used, buffer| {
            let stays = |kind, dated, day| u64::from(day) <= u64::from(dated) + days(kind);
            swept_by(stays, day, used, buffer)
        }));
        assert!(!sweeps(|day, used, buffer| {
            let stays = |kind, dated: u32, day| day < dated.wrapping_add(days(kind) as u32);
            swept_by(stays, day, used, buffer)
        }));
        assert!(!sweeps(|day, used, buffer| {
            let stays = |kind, dated, day: u32| u64::from(day.wrapping_sub(dated)) < days(kind);
            swept_by(stays, day, used, buffer) // as if what is dated later were too old
        }));
        assert!(!sweeps(|day, used, buffer| {
            let signed = |day: u32| i64::from(day as i32);
            let stays = |kind, dated, day| signed(day) < signed(dated) + days(kind) as i64;
            swept_by(stays, day, used, buffer)
        }));
        assert!(!sweeps(|day, used, buffer| {
            let stays = |_, dated, day| u64::from(day) < u64::from(dated) + 30;
            swept_by(stays, day, used, buffer)
        }));
    }

    #[test]
    fn wrong_sweeps_are_noticed() {
        assert!(sweeps(ENGINE.sweep));
        assert!(!sweeps(|day, used, buffer| {
            let reply = (ENGINE.sweep)(day, used, buffer);
            if reply.number == 0 {
                buffer[reply.used..used].fill(0); // as if what was swept were cleared
            }
            reply
        }));
        assert!(!sweeps(|day, used, buffer| {
            let used = used.min(buffer.len());
            (ENGINE.sweep)(day, used, buffer)
        }));
        assert!(!sweeps(|day, used, buffer| {
            let reply = (ENGINE.sweep)(day, used, buffer);
            numbered(16, 0, reply)
        }));
    }

    #[test]
    fn wrong_reading_is_noticed() {
        assert!(reads(ENGINE.next));
        assert!(!reads(|at, used, buffer| {
            let mut entry = (ENGINE.next)(at, used, buffer);
            if at == used {
                entry.next = 0; // as of a refused call
            }
            entry
        }));
        assert!(!reads(|at, used, buffer| {
            let used = used.min(buffer.len());
            (ENGINE.next)(at, used, buffer)
        }));
        assert!(!reads(|at, used, buffer| {
            let swept = (ENGINE.sweep)(0, used, &mut buffer.to_vec());
            let mut entry = (ENGINE.next)(at, used, buffer);
            if swept.number > 0 {
                entry.number = 16; // as if it looked at the whole log
            }
            entry
        }));
        assert!(!reads(|at, used, buffer| {
            let mut entry = (ENGINE.next)(at, used, buffer);
            entry.day = entry.day.swap_bytes();
            entry
        }));
    }
}
