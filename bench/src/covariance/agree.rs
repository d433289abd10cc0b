//! Before anything is timed: an implementation answers what the engine answers, in every number, sum
//! and byte, where a call is accepted and where it is refused.

use hubqr::ffi::{Snapshot, Sums};
use hubqr::{MATRIX_RECORD_BYTES, SNAPSHOTS_MAX, SUM_WORDS};
use reference::random::Random;

use super::implementations::{Adding, Engine};
use crate::inputs;

/// Counts around those that decide whether a call is accepted.
const COUNTS: [u32; 7] = [
    0,
    1,
    2,
    SNAPSHOTS_MAX - 1,
    SNAPSHOTS_MAX,
    SNAPSHOTS_MAX + 1,
    u32::MAX,
];

/// Sums of arbitrary words within the range. No snapshots lead to them, but calls have to take them.
const ARBITRARY: usize = 200;

/// Longer than a record, so that a byte written behind it is seen.
type Buffer = [u8; MATRIX_RECORD_BYTES + 3];
const SHORT: usize = MATRIX_RECORD_BYTES - 1;
const LONG: usize = MATRIX_RECORD_BYTES + 3;

/// What writing and then adding leave behind.
#[derive(PartialEq)]
struct Outcome {
    written: [(u8, Buffer); 2],
    number: u8,
    sums: Sums,
}

/// Where an implementation first disagrees with the engine, if it does.
pub fn check<A: Adding>(who: &A, seed: u64) -> Result<(), String> {
    let mut random = Random::new(seed);
    check_list(who, || inputs::snapshot(&mut random))?;
    check_list(who, || {
        inputs::snapshot_of(|| random.choose(&[i16::MIN, i16::MAX]))
    })?;
    check_list(who, || inputs::snapshot_of(|| random.between(-2, 2) as i16))?;
    check_list(who, || inputs::snapshot_of(|| i16::MIN))?;
    let mut all_sums = edges();
    all_sums.extend((0..ARBITRARY).map(|_| arbitrary(&mut random)));
    for sums in all_sums {
        let snapshot = inputs::snapshot(&mut random);
        let expected = outcome(&Engine, &snapshot, &mut Engine.taken(&sums));
        if outcome(who, &snapshot, &mut who.taken(&sums)) != expected {
            return Err(format!("{snapshot:?} and {sums:?}"));
        }
    }
    Ok(())
}

/// Adds snapshots from none on, and at the end one more than is accepted.
fn check_list<A: Adding>(who: &A, mut snapshot: impl FnMut() -> Snapshot) -> Result<(), String> {
    let none = with_word(0, 0, 0);
    let (mut sums, mut engine_sums) = (who.taken(&none), Engine.taken(&none));
    for count in 0..=SNAPSHOTS_MAX {
        let snapshot = snapshot();
        let expected = outcome(&Engine, &snapshot, &mut engine_sums);
        if outcome(who, &snapshot, &mut sums) != expected {
            return Err(format!("{snapshot:?}, added after {count} like it"));
        }
    }
    Ok(())
}

fn outcome<A: Adding>(who: &A, snapshot: &Snapshot, sums: &mut A::Sums) -> Outcome {
    let written = [SHORT, LONG].map(|length| {
        let mut buffer = [0xEE; LONG];
        let number = who.write(sums, &mut buffer[..length]);
        (number, buffer)
    });
    Outcome {
        written,
        number: who.add(snapshot, sums),
        sums: who.given(sums),
    }
}

/// Sums with one word at an end of the range or just beyond it, in each place.
fn edges() -> Vec<Sums> {
    let mut edges = Vec::new();
    for count in COUNTS {
        let limit = i64::from(count) << 31;
        for word in [limit, limit + 1, -limit, -limit - 1] {
            edges.extend((0..SUM_WORDS).map(|place| with_word(count, place, word)));
        }
    }
    edges
}

/// Sums with this word in one place and 0 elsewhere.
fn with_word(count: u32, place: usize, word: i64) -> Sums {
    let mut words = [0; SUM_WORDS];
    words[place] = word;
    Sums { count, words }
}

fn arbitrary(random: &mut Random) -> Sums {
    let count = random.between(1, i64::from(SNAPSHOTS_MAX)) as u32;
    let limit = i64::from(count) << 31;
    let words = std::array::from_fn(|_| random.between(-limit, limit));
    Sums { count, words }
}

#[cfg(test)]
mod tests {
    use super::*;

    struct Calls {
        add: fn(&Snapshot, &mut Sums) -> u8,
        write: fn(&Sums, &mut [u8]) -> u8,
    }

    const RIGHT: Calls = Calls { add, write };

    fn add(snapshot: &Snapshot, sums: &mut Sums) -> u8 {
        let mut taken = Engine.taken(sums);
        let number = Engine.add(snapshot, &mut taken);
        *sums = Engine.given(&taken);
        number
    }

    fn write(sums: &Sums, buffer: &mut [u8]) -> u8 {
        Engine.write(&Engine.taken(sums), buffer)
    }

    impl Adding for Calls {
        type Sums = Sums;

        fn taken(&self, sums: &Sums) -> Sums {
            *sums
        }

        fn given(&self, sums: &Sums) -> Sums {
            *sums
        }

        fn add(&self, snapshot: &Snapshot, sums: &mut Sums) -> u8 {
            (self.add)(snapshot, sums)
        }

        fn write(&self, sums: &Sums, buffer: &mut [u8]) -> u8 {
            (self.write)(sums, buffer)
        }
    }

    fn agrees(calls: Calls) -> bool {
        check(&calls, 1).is_ok()
    }

    #[test]
    fn wrong_adding_is_noticed() {
        assert!(agrees(RIGHT));
        let not_refused: fn(&Snapshot, &mut Sums) -> u8 = |snapshot, sums| {
            add(snapshot, sums);
            0
        };
        let conjugated = |snapshot: &Snapshot, sums: &mut Sums| {
            let mut samples = snapshot.samples;
            samples
                .iter_mut()
                .for_each(|s| s.im = s.im.saturating_neg());
            add(&Snapshot { samples }, sums)
        };
        for add in [not_refused, conjugated] {
            assert!(!agrees(Calls { add, ..RIGHT }));
        }
    }

    #[test]
    fn wrong_writing_is_noticed() {
        let not_refused: fn(&Sums, &mut [u8]) -> u8 = |sums, buffer| {
            write(sums, buffer);
            0
        };
        let one_byte_more = |sums: &Sums, buffer: &mut [u8]| {
            let number = write(sums, buffer);
            if let Some(byte) = buffer.get_mut(MATRIX_RECORD_BYTES) {
                *byte = 0;
            }
            number
        };
        for write in [not_refused, one_byte_more] {
            assert!(!agrees(Calls { write, ..RIGHT }));
        }
    }
}
