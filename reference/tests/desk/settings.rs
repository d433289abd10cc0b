//! Setting shares: when they are refused, what they change, and from when on they count.

use reference::desk::{Desk, SECTORS};

use crate::common::desk::role::OPERATOR;
use crate::common::desk::{BothDesk, Call, Lent, Seen};
use crate::common::Case;
use crate::hub::{full_record, Hub};
use crate::made_up::any_desk;
use crate::shares::{dealt, total, Shares};

/// Makes settings on both sides, each handed a desk.
struct Settings<'a> {
    both: BothDesk<'a>,
}

impl<'a> Settings<'a> {
    fn new(test: &'static str, seed: u64, seen: &'a mut Seen) -> Self {
        let both = BothDesk::new(Case::of_words(test, seed, 0), seen);
        Settings { both }
    }

    /// They are refused exactly if they are above 120 in total.
    fn set(&mut self, desk: &Desk, shares: Shares) {
        let call = Call::SetShares { shares };
        let reply = self.both.call_handed(OPERATOR, desk, &call, Lent::area(0));
        let due = if total(&shares) > 120 { 14 } else { 0 };
        self.both.require(reply.number == due, "another number");
    }
}

/// Every total around 120, and every total that would be 120 or less if it were kept in 16 bits, on
/// desks with anything on them.
#[test]
fn exactly_the_totals_above_120_are_refused() {
    let mut seen = Seen::default();
    let mut settings = Settings::new("totals of shares", 1181, &mut seen);
    let mut random = Case::of_words("totals of shares", 1181, 1).random();
    let wrapping = (1..=7).flat_map(|wraps| 65_536 * wraps - 2..=65_536 * wraps + 122);
    for total in (0..=600).chain(wrapping).chain([8 * 65_535]) {
        for desk in [Desk::NEW, any_desk(&mut random)] {
            settings.set(&desk, dealt(total, SECTORS, &mut random));
        }
    }
    seen.print("Totals of shares");
    assert_eq!(seen.refusals, [(14, 2 * (480 + 7 * 125 + 1))].into());
}

/// One share at every place with nothing, or the same share, at all others.
#[test]
fn each_share_counts_like_the_others() {
    let mut seen = Seen::default();
    let mut settings = Settings::new("single shares", 1182, &mut seen);
    let powers = (7..16).flat_map(|bit| [(1 << bit) - 1, 1 << bit, (1 << bit) + 1]);
    let shares: Vec<u16> = (0..=130).chain(powers).chain([u16::MAX]).collect();
    for (k, share) in (0..SECTORS).flat_map(|k| shares.iter().map(move |share| (k, *share))) {
        for others in [0, 1, 15, 17, 8_192, 0x8000, u16::MAX] {
            let mut shares = [others; SECTORS];
            shares[k] = share;
            settings.set(&Desk::NEW, shares);
        }
    }
    seen.print("Single shares");
    seen.assert_numbers(&[14]);
}

/// What is granted in the round goes by the shares with which it began, and of several settings the
/// last that was accepted counts.
#[test]
fn new_shares_count_from_the_next_round_on() {
    let mut seen = Seen::default();
    let mut hub = Hub::new("new shares", 1183, &mut seen);
    hub.load(2, full_record(1183));
    assert_eq!(hub.set_shares([0; 8]), 0);
    assert_eq!(hub.run(2, 4), (0, 4));
    assert_eq!(hub.set_shares([0, 0, 120, 0, 0, 0, 0, 0]), 0);
    assert_eq!(hub.run(2, 120), (0, 11));
    assert_eq!(hub.set_shares([16; 8]), 14);
    assert_eq!(hub.run(2, 1), (13, 0));
    assert_eq!(hub.set_shares([1, 0, 9, 0, 110, 0, 0, 0]), 0);
    assert_eq!(hub.set_shares([0, 0, 121, 0, 0, 0, 0, 0]), 14);
    assert_eq!(hub.left(), [15, 15, 0, 15, 15, 15, 15, 15]);
    hub.begin();
    assert_eq!(hub.left(), [1, 0, 9, 0, 110, 0, 0, 0]);
    assert_eq!(hub.run(2, 120), (0, 9));
    seen.print("New shares");
    seen.assert_numbers(&[13, 14]);
}
