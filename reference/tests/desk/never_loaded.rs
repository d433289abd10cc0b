//! Sectors never loaded: they have the job (120, 0) and heard byte 0.

use reference::area::AREA_WORDS;
use reference::desk::{Desk, Seat, SECTORS};
use reference::job::Job;
use reference::records::RESULT_RECORD;

use crate::common::desk::role::{FITTER, OPERATOR};
use crate::common::desk::{BothDesk, Call, Lent, Seen};
use crate::common::words::arbitrary_area;
use crate::common::Case;
use crate::steps::good_record;

/// A Run is accepted and makes nothing, whatever the sector has left and whatever the area holds.
#[test]
fn a_run_makes_nothing() {
    let mut seen = Seen::default();
    for sector in 0..8 {
        let case = Case::of_words("Runs of nobody", 1151, sector.into());
        let words = arbitrary_area(&mut case.random());
        let mut both = BothDesk::new(case, &mut seen);
        both.fill_area(0, &words);
        let lent = Lent::area(0);
        let short = Lent { words: 511, ..lent };
        for left in [0, 1, 119, 120] {
            let seats = [Seat { left, ..Seat::NEW }; SECTORS];
            let desk = Desk { seats };
            for request in [0, 1, 120, u16::MAX] {
                let run = Call::Run { sector, request };
                let reply = both.call_handed(OPERATOR, &desk, &run, lent);
                assert_eq!((reply.number, reply.count), (0, 0));
                assert_eq!((reply.job, reply.desk), (Job::new(120, 0), desk));
                both.require(both.words(0)[..512] == words, "an area changed");
                let refused = both.call_handed(OPERATOR, &desk, &run, short);
                assert_eq!(refused.number, 3);
            }
        }
    }
    seen.print("Runs of sectors never loaded");
    seen.assert_numbers(&[3]);
}

/// A Fetch believes the words of the area: zeros are a result, arbitrary words are none.
#[test]
fn a_fetch_writes_what_the_area_holds() {
    let mut seen = Seen::default();
    let mut zeros = vec![0; RESULT_RECORD];
    zeros[0] = 2;
    for (sector, role) in (0..8).flat_map(|sector| [FITTER, OPERATOR].map(|role| (sector, role))) {
        let case = Case::of_words("Fetches of nobody", 1152, sector.into());
        let mut both = BothDesk::new(case, &mut seen);
        both.fill_area(1, &[0; AREA_WORDS]);
        let mut fetch = |area, words, bytes| {
            let lent = Lent { area, words, bytes };
            let reply = both.call(role, &Call::Fetch { sector }, lent);
            assert_eq!(reply.desk, Desk::NEW);
            (reply.number, both.fetched() == zeros)
        };
        assert_eq!(fetch(0, 512, 2049), (8, false));
        assert_eq!(fetch(0, 511, 2048), (3, false));
        assert_eq!(fetch(0, 512, 2048), (7, false));
        assert_eq!(fetch(1, 511, 2049), (3, false));
        assert_eq!(fetch(1, 512, 2048), (7, false));
        assert_eq!(fetch(1, 512, 2049), (0, true));
        assert_eq!(fetch(1, 520, 2057), (0, true));
    }
    seen.print("Fetches of sectors never loaded");
    seen.assert_numbers(&[3, 7, 8]);
}

/// Nothing that one sector does gives another a job or a heard byte.
#[test]
fn loading_one_sector_loads_no_other() {
    let mut seen = Seen::default();
    for sector in 0..8 {
        let case = Case::of_words("one sector", 1153, sector.into());
        let record = good_record(&mut case.random());
        let mut both = BothDesk::new(case, &mut seen);
        let lent = Lent::area(sector as usize);
        let hand_in = Call::HandIn { sector, record };
        let heard = both.call(OPERATOR, &hand_in, lent).heard;
        both.call(OPERATOR, &Call::Run { sector, request: 9 }, lent);
        for other in 0..8 {
            let reply = both.call(OPERATOR, &Call::Heard { sector: other }, lent);
            let due = if other == sector { heard } else { 0 };
            assert_eq!((reply.number, reply.heard), (0, due));
            let due = if other == sector { 9 } else { 120 };
            assert_eq!(both.desk().seats[other as usize].job.turn, due);
        }
    }
    seen.print("One sector loaded");
}
