//! Logs of more than 65,536 bytes.

use reference::log::{Entry, EntryKind};

use crate::common::log::{BothLog, Call, Reply, Seen};
use crate::common::Case;
use crate::logs::{bytes, entry, stays, HEAD};
use crate::rules::{Others, Rule};

const BYTES: usize = 140_000;

/// Rules that cut a count.
const NARROW: [Rule; 3] = [Rule::SumBits(16), Rule::UsedBits(16), Rule::SumBits(17)];

/// Results and heard bytes are added, some days after others, until no result fits, and then swept day
/// by day until all are gone.
#[test]
fn used_counts_beyond_16_bits() {
    let (mut seen, mut others) = (Seen::default(), Others::of(NARROW));
    let case = Case::of_words("large", 1591, 0);
    let mut random = case.random();
    let mut log = BothLog::new(case, BYTES);
    let (mut entries, mut used, mut day) = (Vec::<Entry>::new(), 0, 500);
    loop {
        let kind = random.choose(&[EntryKind::Result, EntryKind::Heard]);
        let entry = entry(kind, day, &mut random);
        let made = seen.make(&mut log, Call::add(&entry, used));
        others.look(&made);
        let end = used + HEAD + entry.body.len();
        if end > BYTES {
            log.require(made.reply.number() == 17, "a result that does not fit");
            break;
        }
        log.require(made.reply == Reply::used(end), "an entry that fits");
        entries.push(entry);
        used = end;
        day += random.below(2) as u32;
    }
    let all = seen.read_back(&mut log, used);
    log.require(all.as_ref() == Some(&entries), "another log");
    let first = 507;
    for day in first..day + 90 {
        let made = seen.make(&mut log, Call::Sweep { day, used });
        if used > 1 << 16 {
            others.look(&made);
        }
        entries.retain(|entry| stays(entry, day));
        used = bytes(&entries).len();
        log.require(made.reply == Reply::used(used), "another sweep");
    }
    log.require(used == 0, "something is left");
    seen.print("A log of up to 140000 bytes");
    others.print_and_require_all_rules("large");
    seen.assert_numbers(&[17]);
}
