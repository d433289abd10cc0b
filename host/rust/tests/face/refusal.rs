//! The refusal as a value: numbers, words, errors.
use hubqr::{Refusal, UnknownNumber};
use std::collections::HashSet;
use std::error::Error;

#[test]
fn numbers_go_both_ways() {
    for (place, &refusal) in Refusal::ALL.iter().enumerate() {
        assert_eq!(usize::from(refusal.number()), place + 1);
        assert_eq!(Refusal::try_from(refusal.number()), Ok(refusal));
    }
    for number in [0, Refusal::ALL.len() as u8 + 1, 255] {
        assert_eq!(Refusal::try_from(number), Err(UnknownNumber(number)));
    }
}

#[test]
fn each_has_words_of_its_own() {
    let words: HashSet<String> = Refusal::ALL.iter().map(Refusal::to_string).collect();
    assert_eq!(words.len(), Refusal::ALL.len());
    assert_eq!(
        Refusal::WrongKind.to_string(),
        "the record is empty or its kind byte is not the one expected, \
         or a log has no such kind of entry"
    );
    assert_eq!(
        Refusal::WrongLength.to_string(),
        "the record's length is not 257 bytes for a matrix or 2,049 bytes for a result, \
         or a log entry's body has not the length of its kind"
    );
    assert_eq!(
        Refusal::NoneHeard.to_string(),
        "no antenna was heard: the real part of every diagonal element is 16 or less"
    );
    assert_eq!(
        Refusal::NoSuchJob.to_string(),
        "the turn number is above 120, or less than the turns made"
    );
    assert_eq!(
        Refusal::ZeroDiagonal.to_string(),
        "one of R's 16 diagonal words is 0"
    );
    assert_eq!(Refusal::NoSuchSector.to_string(), "the sector is above 7");
    assert_eq!(
        Refusal::CountUsedUp.to_string(),
        "turns are requested for an unfinished job, and the sector has none left in the round"
    );
    assert_eq!(
        Refusal::SharesExceedRound.to_string(),
        "the shares are above 120 in total"
    );
    assert_eq!(
        Refusal::NotAllowed.to_string(),
        "the call is not allowed to this role"
    );
    assert_eq!(
        Refusal::BrokenLog.to_string(),
        "the used bytes of the log pass the buffer or are no whole run of entries"
    );
    assert_eq!(
        Refusal::NoRoom.to_string(),
        "the entry does not fit behind the used bytes of the log"
    );
    assert_eq!(UnknownNumber(0).to_string(), "0 is no refusal number");
}

#[test]
fn both_are_errors_that_a_question_mark_takes() {
    fn refuse() -> Result<(), Box<dyn Error>> {
        hubqr::load(&[], &mut [])?;
        Ok(())
    }
    fn name() -> Result<Refusal, Box<dyn Error>> {
        Ok(Refusal::try_from(0)?)
    }
    let refusal = refuse().unwrap_err();
    assert_eq!(refusal.downcast_ref(), Some(&Refusal::WrongKind));
    assert_eq!(name().unwrap_err().downcast_ref(), Some(&UnknownNumber(0)));
}
