//! Who may make which call: every call by every role, and by numbers that are no role.
use super::{busy, made_up, only, raw, record_of, refused, room, Hub, NO_SECTORS};
use crate::lent::{at, mixed_matrix, Lent};
use hubqr::Refusal::{self, *};
use hubqr::Role::{self, Fitter, Operator, Viewer};
use hubqr::{Desk, SECTORS};

/// Numbers of no role. Cut to a byte or to 16 bits, some of them would be one.
const NO_ROLES: [u32; 14] = [
    3,
    4,
    254,
    255,
    256,
    257,
    258,
    65_535,
    65_536,
    65_537,
    65_538,
    1 << 31,
    u32::MAX - 1,
    u32::MAX,
];

/// What a call is handed besides its role, its desk and what it is lent.
struct Handed {
    sector: u32,
    record: Vec<u8>,
    request: u16,
    shares: [u16; SECTORS],
}

/// What a call answers: the desk, the number, and what all other fields hold.
type Answer = (Desk, u8, Vec<u32>);

type Call = fn(u32, &Desk, &Handed, &mut Lent) -> Answer;

/// Whether a call is allowed to the role of a number.
type Allowed = fn(u32) -> bool;

/// The calls, and to whom each is allowed.
const CALLS: [(Call, Allowed); 6] = [
    (begin, |role| role == 2),
    (set_shares, |role| role == 2),
    (hand_in, |role| role == 2),
    (run, |role| role == 2),
    (fetch, |role| role == 1 || role == 2),
    (heard, |role| role <= 2),
];

fn begin(role: u32, desk: &Desk, _: &Handed, _: &mut Lent) -> Answer {
    let reply = raw::begin(role, desk);
    (reply.desk, reply.number, vec![])
}

fn set_shares(role: u32, desk: &Desk, handed: &Handed, _: &mut Lent) -> Answer {
    let reply = raw::set_shares(role, desk, handed.shares);
    (reply.desk, reply.number, vec![])
}

fn hand_in(role: u32, desk: &Desk, handed: &Handed, lent: &mut Lent) -> Answer {
    let reply = raw::hand_in(role, desk, handed.sector, &handed.record, &mut lent.area);
    let fields = vec![reply.heard.into(), reply.job.turn, reply.job.made];
    (reply.desk, reply.number, fields)
}

fn run(role: u32, desk: &Desk, handed: &Handed, lent: &mut Lent) -> Answer {
    let reply = raw::run(role, desk, handed.sector, handed.request, &mut lent.area);
    let job = [reply.job.turn, reply.job.made];
    let counts = [reply.count, reply.clamps_r, reply.clamps_q];
    (reply.desk, reply.number, [&job[..], &counts].concat())
}

fn fetch(role: u32, desk: &Desk, handed: &Handed, lent: &mut Lent) -> Answer {
    let (area, buffer) = (&mut lent.area, &mut lent.buffer);
    let reply = raw::fetch(role, desk, handed.sector, area, buffer);
    (reply.desk, reply.number, vec![])
}

fn heard(role: u32, desk: &Desk, handed: &Handed, _: &mut Lent) -> Answer {
    let reply = raw::heard(role, desk, handed.sector);
    (reply.desk, reply.number, vec![reply.heard.into()])
}

/// A desk at which the operator may make each call for a sector with what is in order: its job is
/// finished, and a matrix waits.
fn ready(sector: usize) -> Desk {
    let mut desk = busy();
    (desk.jobs[sector], desk.waits[sector]) = (at(120, 93), 1);
    room(&mut desk, sector).copy_from_slice(&record_of(sector));
    desk
}

/// What no call refuses for its own sake, for a sector.
fn in_order(sector: u32) -> Handed {
    Handed {
        sector,
        record: mixed_matrix(),
        request: 120,
        shares: [15; SECTORS],
    }
}

/// What all calls but Begin and that for the heard byte refuse, if they are lent too little.
fn out_of_order(sector: u32) -> Handed {
    Handed {
        sector,
        record: vec![],
        request: 1,
        shares: [16; SECTORS],
    }
}

/// An area with a finished result, and a buffer.
fn finished() -> Lent {
    let mut lent = Lent::new();
    hubqr::whole(&record_of(6), &mut lent.area, &mut lent.buffer).unwrap();
    lent.buffer = Lent::new().buffer;
    lent
}

/// Makes each call for each number of a role. One that is not allowed answers 15, the desk as it was and
/// 0 in all other fields, and leaves what it was lent. An allowed one does what it does for the
/// operator, and answers the number that is due; but a fitter's Fetch leaves desk and area.
fn by_every_role(desk: &Desk, handed: &Handed, lent: &Lent, due: [u8; 6]) {
    for ((call, allowed), due) in CALLS.into_iter().zip(due) {
        let mut after = lent.clone();
        let operator = call(Operator.number(), desk, handed, &mut after);
        assert_eq!(operator.1, due);
        for role in (0..3).chain(NO_ROLES) {
            let mut kept = lent.clone();
            let (answered, number, fields) = call(role, desk, handed, &mut kept);
            if !allowed(role) {
                let nothing = vec![0; fields.len()];
                assert_eq!((number, fields), (NotAllowed.number(), nothing));
                assert_eq!((&answered, &kept), (desk, lent));
                continue;
            }
            assert_eq!((number, &fields), (operator.1, &operator.2));
            assert_eq!(kept.buffer, after.buffer);
            let changed = match role == Operator.number() {
                true => (&operator.0, &after.area),
                false => (desk, &lent.area),
            };
            assert_eq!((&answered, &kept.area), changed);
        }
    }
}

#[test]
fn roles_have_their_numbers_in_c() {
    let numbers = [Viewer, Fitter, Operator].map(Role::number);
    assert_eq!((numbers, size_of::<Role>()), ([0, 1, 2], 4));
    assert_eq!(NotAllowed.number(), 15);
}

#[test]
fn every_call_by_every_role() {
    for sector in 0..SECTORS as u32 {
        let desk = ready(sector as usize);
        by_every_role(&desk, &in_order(sector), &finished(), [0; 6]);
    }
}

/// Whatever the sector, the desk and all else.
#[test]
fn the_role_is_tested_before_all_else() {
    let short = Lent {
        area: vec![7; 511],
        buffer: vec![7; 2048],
    };
    for sector in NO_SECTORS {
        for desk in [Desk::new(), busy(), made_up()] {
            let due = [0, 14, 12, 12, 12, 12];
            by_every_role(&desk, &out_of_order(sector), &short, due);
            let due = [0, 0, 12, 12, 12, 12];
            by_every_role(&desk, &in_order(sector), &finished(), due);
        }
    }
    for sector in 0..SECTORS as u32 {
        let due = [0, 14, 1, 3, 3, 0];
        by_every_role(&busy(), &out_of_order(sector), &short, due);
        let mut none = busy();
        none.jobs[sector as usize] = at(5, 6);
        let due = [0, 14, 1, 5, 5, 0];
        by_every_role(&none, &out_of_order(sector), &finished(), due);
    }
}

/// The crate's own calls hand the role over.
#[test]
fn the_crate_refuses_what_is_not_allowed() {
    let (record, with) = (mixed_matrix(), NotAllowed);
    for sector in (0..SECTORS as u32).chain(NO_SECTORS) {
        let desk = ready(sector as usize % SECTORS);
        for role in [Viewer, Fitter] {
            refused(&desk, |d, _| d.begin(role), with);
            refused(&desk, |d, _| d.set_shares(role, [15; SECTORS]), with);
            refused(&desk, |d, _| d.set_shares(role, [16; SECTORS]), with);
            let hand_in =
                |d: &mut Desk, l: &mut Lent| d.hand_in(role, sector, &record, &mut l.area);
            refused(&desk, hand_in, with);
            refused(&desk, |d, l| d.run(role, sector, 1, &mut l.area), with);
            refused(&desk, |d, _| d.run(role, sector, 0, &mut []), with);
        }
        let fetch =
            |d: &mut Desk, l: &mut Lent| d.fetch(Viewer, sector, &mut l.area, &mut l.buffer);
        refused(&desk, fetch, with);
        let fetch = |d: &mut Desk, _: &mut Lent| d.fetch(Viewer, sector, &mut [], &mut []);
        refused(&desk, fetch, with);
    }
}

/// A fitter fetches as often as it likes, what waits goes on waiting, also for one that takes its place,
/// and the operator's Fetch brings it in.
#[test]
fn a_fitter_brings_nothing_in() {
    let records = [record_of(4), record_of(2), mixed_matrix()];
    for sector in 0..SECTORS {
        let mut hub = Hub::new();
        hub.set_shares(only(sector, 120));
        hub.begin();
        hub.load(sector, &records[0]);
        hub.keep(sector, &records[1]);
        fetch_refused(&hub, sector, Fitter, Unfinished);
        hub.run(sector, 120, 120);
        for next in &records[1..] {
            hub.fetch_by(Fitter, sector, &records[0]);
            hub.keep(sector, next);
            hub.fetch_by(Fitter, sector, &records[0]);
            fetch_refused(&hub, sector, Viewer, NotAllowed);
        }
        assert_eq!(hub.desk.jobs[sector].turn, 120);
        assert_eq!(hub.desk.waits[sector], 1);
        hub.fetch(sector, &records[0]);
        fetch_refused(&hub, sector, Fitter, Unfinished);
        hub.begin();
        hub.run(sector, 120, 120);
        hub.fetch_by(Fitter, sector, &records[2]);
        hub.fetch(sector, &records[2]);
        hub.fetch_by(Fitter, sector, &records[2]);
        hub.load(sector, &records[0]);
    }
}

/// A Fetch that is refused.
fn fetch_refused(hub: &Hub, sector: usize, role: Role, with: Refusal) {
    let fetch =
        |d: &mut Desk, l: &mut Lent| d.fetch(role, sector as u32, &mut l.area, &mut l.buffer);
    refused(&hub.desk, fetch, with);
}

/// What waits in a made-up desk does as well, whatever number says so.
#[test]
fn a_fitter_leaves_whatever_waits() {
    for waits in 0..=u8::MAX {
        let sector = usize::from(waits % 8);
        let (mut desk, mut lent) = (ready(sector), finished());
        desk.waits[sector] = waits;
        let (before, area) = (desk.clone(), lent.area.clone());
        let fetched = desk.fetch(Fitter, sector as u32, &mut lent.area, &mut lent.buffer);
        assert_eq!((fetched, &desk, &lent.area), (Ok(()), &before, &area));
    }
}

/// Two desks that have nothing in common but the heard bytes, with other areas: a viewer is answered the
/// same.
#[test]
fn a_viewer_sees_heard_bytes_alone() {
    let other = Desk {
        heard: busy().heard,
        ..made_up()
    };
    for sector in (0..SECTORS as u32).chain(NO_SECTORS) {
        for handed in [in_order(sector), out_of_order(sector)] {
            for (call, _) in CALLS {
                let (mut first, mut second) = (finished(), finished());
                second.area.fill(5);
                let (_, number, fields) = call(0, &busy(), &handed, &mut first);
                let (_, again, others) = call(0, &other, &handed, &mut second);
                assert_eq!((number, fields), (again, others));
                assert_eq!(first.buffer, second.buffer);
            }
        }
    }
}

/// Two desks that agree on the heard bytes and on which jobs are finished, unfinished or none: a fitter
/// that lends the same is answered and written the same.
#[test]
fn a_fitter_sees_no_shares_and_nothing_that_waits() {
    let jobs = |made| [at(119, made), at(120, made), at(5, 6 + made), at(121, made)];
    let with = |desk: Desk, made| Desk {
        jobs: std::array::from_fn(|k| jobs(made)[k % 4]),
        heard: busy().heard,
        ..desk
    };
    for sector in (0..SECTORS as u32).chain(NO_SECTORS) {
        for handed in [in_order(sector), out_of_order(sector)] {
            for (call, _) in CALLS {
                let (mut first, mut second) = (finished(), finished());
                let (_, number, fields) = call(1, &with(busy(), 0), &handed, &mut first);
                let (_, again, others) = call(1, &with(made_up(), 99), &handed, &mut second);
                assert_eq!((number, fields, first), (again, others, second));
            }
        }
    }
}
