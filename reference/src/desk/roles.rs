//! Tests of who may make which call.

use super::*;

/// Numbers that are no role. Cut to 8 or 16 bits, most of them would be one.
const UNKNOWN: [u32; 7] = [3, 255, 256, 257, 258, 65_538, u32::MAX];

/// A desk at which every sector is finished, no seat is like another, and a matrix waits at each.
fn desk() -> Desk {
    let seat = |k: usize| Seat {
        job: Job::new(120, k as u32 + 1),
        heard: k as u8 + 1,
        share: 20 - k as u16,
        left: k as u16,
        waits: 1,
        record: [1; MATRIX_RECORD],
    };
    Desk {
        seats: std::array::from_fn(seat),
    }
}

/// What every call answers to a role. Where one is refused for it, neither area nor buffer changes.
fn call_all(role: u32, sector: u32, record: &[u8], share: u16, words: usize) -> [DeskReply; 6] {
    let (desk, mut area, mut buffer) = (desk(), [0; 512], [7; 2049]);
    let area = &mut area[..words];
    let heard = heard(role, &desk, sector);
    let begun = begin(role, &desk);
    let set = set_shares(role, &desk, &[share; 8]);
    let ran = run(role, &desk, sector, 1, area);
    let handed_in = hand_in(role, &desk, sector, record, area);
    assert_eq!(
        area,
        vec![0; words],
        "a Run of nothing, or a matrix that waits"
    );
    let fetched = fetch(role, &desk, sector, area, &mut buffer);
    if fetched.number == 15 {
        assert_eq!((area, buffer), (&mut vec![0; words][..], [7; 2049]));
    }
    [heard, fetched, handed_in, ran, begun, set]
}

/// How many of the calls are allowed, of all in the order in which they are answered.
fn allowed(role: u32) -> usize {
    match role {
        0 => 1,
        1 => 2,
        2 => 6,
        _ => 0,
    }
}

#[test]
fn each_role_may_make_its_own_calls() {
    for role in (0..3).chain(UNKNOWN) {
        for sector in 0..8 {
            let replies = call_all(role, sector, &[1; 257], 15, 512);
            for (k, reply) in replies.into_iter().enumerate() {
                let number = if k < allowed(role) { 0 } else { 15 };
                assert_eq!(reply.number, number, "call {k} by role {role}");
                if number == 15 {
                    assert_eq!(reply, DeskReply::refused(Refusal::Role, &desk()));
                }
            }
        }
    }
}

/// Whatever else is wrong.
#[test]
fn the_role_is_tested_first() {
    for role in (0..3).chain(UNKNOWN) {
        for sector in [8, 255, 256, 257, 258, u32::MAX] {
            let replies = call_all(role, sector, &[], 16, 511);
            let due = [12, 12, 12, 12, 0, 14];
            for (k, (reply, due)) in replies.into_iter().zip(due).enumerate() {
                let number = if k < allowed(role) { due } else { 15 };
                assert_eq!(reply.number, number, "call {k} by role {role}");
            }
        }
    }
}

/// It leaves what waits and the job at its end, and may be repeated until the operator's Fetch.
#[test]
fn a_fetch_of_a_fitter_leaves_what_waits() {
    let (desk, mut area) = (desk(), [0; 512]);
    for sector in 0..8 {
        let mut buffers = [[7; 2049]; 3];
        for buffer in &mut buffers[..2] {
            let reply = fetch(1, &desk, sector, &mut area, buffer);
            assert_eq!((reply, area), (DeskReply::from(desk), [0; 512]));
        }
        let brought_in = fetch(2, &desk, sector, &mut area, &mut buffers[2]);
        assert_eq!(buffers, [buffers[0]; 3]);
        let Seat { job, heard, .. } = brought_in.desk.seats[sector as usize];
        assert_eq!((job, heard, area[0]), (Job::new(0, 0), 255, 257 << 13));
        area = [0; 512];
    }
}

/// All other tests of a fitter's Fetch are those of the operator's.
#[test]
fn a_fitter_is_refused_like_the_operator() {
    let mut under = [0; 512];
    under[15 * 32] = 1;
    for role in 1..=2 {
        let mut number = |turn, made, words: usize, bytes: usize| {
            let mut desk = desk();
            desk.seats[4].job = Job::new(turn, made);
            let (area, buffer) = (&mut under[..words], &mut [7; 2049][..bytes]);
            let reply = fetch(role, &desk, 4, area, buffer);
            assert_eq!(reply.desk, desk);
            reply.number
        };
        assert_eq!(number(121, 0, 511, 2048), 3);
        assert_eq!(number(121, 0, 512, 2048), 5);
        assert_eq!(number(119, 0, 512, 2048), 6);
        assert_eq!(number(120, 0, 512, 2048), 7);
        assert_eq!(number(120, 0, 512, 2049), 8);
    }
}
