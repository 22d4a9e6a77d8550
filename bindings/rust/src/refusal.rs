//! Why a call is refused.

use std::error::Error;
use std::fmt;

/// Why a call was refused. Nothing has changed then: no list, no cursor.
///
/// Where several reasons hold, the one with the lowest number is given; only warps that become too many once a chart's own are added to the
/// given ones are seen after values, and are [`TooLong`](Refusal::TooLong) too.
///
/// Later versions may have more reasons.
///
/// ```
/// use marrighentu::Refusal;
///
/// assert_eq!(Refusal::try_from(3), Ok(Refusal::BadBeat));
/// assert!(Refusal::try_from(0).is_err());
/// assert_eq!(u32::from(Refusal::NoRoom), 7);
/// ```
#[derive(Clone, Copy, Debug, PartialEq, Eq, Hash)]
#[non_exhaustive]
#[repr(u32)]
pub enum Refusal {
    /// A list has more than 1,024 entries, or given and made warps together have; or note data has more than 2^20 bytes.
    TooLong = 1,
    /// The columns of one list differ in length.
    Uneven = 2,
    /// A beat lies beyond 65,536 on either side, or is not finite; or a row lies beyond 3,145,728.
    BadBeat = 3,
    /// A tempo, a length, a unit or an offset is beyond its limit; or a time lies beyond 2^50 seconds on either side, or is not finite.
    BadValue = 4,
    /// The rows of a list do not rise strictly, or the tempos do not start at beat 0; where notes are to be drawn, the beats of the scrolls fall.
    NotRising = 5,
    /// Scrolls or speeds are out of order in such a way that a place for the next one can't be told.
    Falls = 6,
    /// A result is longer than its room.
    NoRoom = 7,
    /// Stops for SM: there is a warp, and no tempo.
    NoTempo = 8,
    /// A cursor that no question left behind.
    BadCursor = 9,
    /// The report program's input is not of its form.
    BadText = 10,
}

impl Refusal {
    /// Every reason, in the order of their numbers.
    pub const ALL: [Refusal; 10] = [
        Refusal::TooLong,
        Refusal::Uneven,
        Refusal::BadBeat,
        Refusal::BadValue,
        Refusal::NotRising,
        Refusal::Falls,
        Refusal::NoRoom,
        Refusal::NoTempo,
        Refusal::BadCursor,
        Refusal::BadText,
    ];

    /// The number by which the port answers, 1 to 10.
    #[must_use]
    pub const fn number(self) -> u32 {
        self as u32
    }

    /// The reason with a number; none for 0, which is no refusal, and for numbers that are not given.
    #[must_use]
    pub fn from_number(number: u32) -> Option<Refusal> {
        Refusal::ALL.into_iter().find(|refusal| refusal.number() == number)
    }
}

/// A number that is no refusal's: 0, which is taken, or one that is not given.
#[derive(Clone, Copy, Debug, PartialEq, Eq, Hash)]
pub struct NoRefusal(pub u32);

impl fmt::Display for NoRefusal {
    fn fmt(&self, f: &mut fmt::Formatter<'_>) -> fmt::Result {
        write!(f, "{} is the number of no refusal", self.0)
    }
}

impl Error for NoRefusal {}

impl TryFrom<u32> for Refusal {
    type Error = NoRefusal;

    fn try_from(number: u32) -> Result<Refusal, NoRefusal> {
        Refusal::from_number(number).ok_or(NoRefusal(number))
    }
}

impl From<Refusal> for u32 {
    fn from(refusal: Refusal) -> u32 {
        refusal.number()
    }
}

/// What a call answered, where its number is 0.
///
/// # Panics
/// Where the number is none that the port gives, so that another library than the port was linked.
#[inline]
pub(crate) fn taken<T>(number: u32, answer: T) -> Result<T, Refusal> {
    if number == 0 {
        return Ok(answer);
    }
    Err(Refusal::try_from(number).expect("the linked library gives numbers that this crate knows"))
}

impl fmt::Display for Refusal {
    fn fmt(&self, f: &mut fmt::Formatter<'_>) -> fmt::Result {
        let why = match self {
            Refusal::TooLong => "a list has more than 1,024 entries, made warps included",
            Refusal::Uneven => "the columns of a list differ in length",
            Refusal::BadBeat => "a beat is not within -65,536 to 65,536, or a row not within -3,145,728 to 3,145,728",
            Refusal::BadValue => "a tempo, a length, a unit, an offset or a time is beyond its limit",
            Refusal::NotRising => "the rows of a list do not rise strictly, or the tempos do not start at beat 0",
            Refusal::Falls => "scrolls or speeds are out of order, so that an entry has no place",
            Refusal::NoRoom => "a result is longer than its room",
            Refusal::NoTempo => "there is a warp and no tempo",
            Refusal::BadCursor => "the cursor is none that a question left behind",
            Refusal::BadText => "the text is not of the report's form",
        };
        write!(f, "{why} (refusal {})", self.number())
    }
}

impl Error for Refusal {}
