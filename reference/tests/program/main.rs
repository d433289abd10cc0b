//! The programs `qr` and `page`: what they write to each input, however the input arrives.
//!
//! `HUBQR_QR` and `HUBQR_PAGE` name the programs; without them, they are `build/qr` and
//! `build/page` of the repository.

mod page;
mod qr;
mod run;

#[path = "../common/noticed.rs"]
mod noticed;
// Of these the page needs only the words.
#[allow(dead_code)]
#[path = "../common/words.rs"]
mod words;

use run::{PAGE, QR};

#[test]
fn output_that_cannot_be_written_is_reported() {
    assert_eq!(QR.complaint(), "qr: the record could not be written\n");
    assert_eq!(PAGE.complaint(), "page: the page could not be written\n");
}
