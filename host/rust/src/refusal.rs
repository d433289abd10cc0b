//! Why a call was refused.
use core::error::Error;
use core::fmt::{self, Display, Formatter};

/// Makes the enum, its list and its words of one line for each refusal: name, number, sentence.
macro_rules! refusals {
    ($($name:ident = $number:literal, $words:literal;)+) => {
        /// The test that a call's input failed. When several would fail, the first in the call's
        /// order decides. Later versions may have further ones.
        ///
        /// ```
        /// let mut area = [0; hubqr::AREA_WORDS];
        /// let job = hubqr::Job { turn: 121, made: 0 };
        /// let refusal = hubqr::run(job, 1, &mut area).unwrap_err();
        /// assert_eq!(refusal, hubqr::Refusal::NoSuchJob);
        /// assert_eq!(refusal.number(), 5);
        /// assert_eq!(
        ///     refusal.to_string(),
        ///     "the turn number is above 120, or less than the turns made"
        /// );
        /// ```
        #[derive(Clone, Copy, Debug, PartialEq, Eq, Hash)]
        #[repr(u8)]
        #[non_exhaustive]
        pub enum Refusal {
            $(#[doc = concat!("Number ", $number, ": ", $words, ".")] $name = $number,)+
        }

        impl Refusal {
            /// All refusals in the order of their numbers.
            pub const ALL: &'static [Refusal] = &[$(Refusal::$name),+];
        }

        /// Says the refusal as a sentence without a full stop.
        impl Display for Refusal {
            fn fmt(&self, f: &mut Formatter<'_>) -> fmt::Result {
                f.write_str(match self {
                    $(Refusal::$name => $words,)+
                })
            }
        }
    };
}

refusals! {
    WrongKind = 1, "the record is empty or its kind byte is not the one expected, \
                    or a log has no such kind of entry";
    WrongLength = 2, "the record's length is not 257 bytes for a matrix or 2,049 bytes for a result, \
                      or a log entry's body has not the length of its kind";
    AreaTooShort = 3, "the area has fewer than 512 words";
    NoneHeard = 4, "no antenna was heard: the real part of every diagonal element is 16 or less";
    NoSuchJob = 5, "the turn number is above 120, or less than the turns made";
    Unfinished = 6, "the turn number is under 120, so the result is not finished";
    BufferTooShort = 7, "the buffer has fewer than 2,049 bytes for a result \
                         or 257 bytes for a matrix";
    NotTriangular = 8, "R has a word under its diagonal that is not 0, \
                        or a negative one among its first 15 diagonal words";
    NoneAdded = 9, "no snapshot has been added";
    SumsOutOfRange = 10, "4,096 snapshots have been added already, the count is above that, \
                          or a sum is beyond 2^31 times the count";
    ZeroDiagonal = 11, "one of R's 16 diagonal words is 0";
    NoSuchSector = 12, "the sector is above 7";
    CountUsedUp = 13, "turns are requested for an unfinished job, \
                       and the sector has none left in the round";
    SharesExceedRound = 14, "the shares are above 120 in total";
    NotAllowed = 15, "the call is not allowed to this role";
    BrokenLog = 16, "the used bytes of the log pass the buffer or are no whole run of entries";
    NoRoom = 17, "the entry does not fit behind the used bytes of the log";
}

impl Refusal {
    /// The number that stands for this refusal in C and in a refusal record.
    pub const fn number(self) -> u8 {
        self as u8
    }
}

impl Error for Refusal {}

/// A number that names no refusal. 0 is one too: it stands for an accepted call.
#[derive(Clone, Copy, Debug, PartialEq, Eq, Hash)]
pub struct UnknownNumber(pub u8);

impl Display for UnknownNumber {
    fn fmt(&self, f: &mut Formatter<'_>) -> fmt::Result {
        write!(f, "{} is no refusal number", self.0)
    }
}

impl Error for UnknownNumber {}

impl TryFrom<u8> for Refusal {
    type Error = UnknownNumber;

    fn try_from(number: u8) -> Result<Refusal, UnknownNumber> {
        let mut all = Refusal::ALL.iter().copied();
        all.find(|refusal| refusal.number() == number)
            .ok_or(UnknownNumber(number))
    }
}
