//! Why a call is declined.

use crate::ffi;
use core::error::Error;
use core::fmt::{Display, Formatter, Result as Written};

/// With the numbers of the C interface. A call that is refused changes nothing. 6 and 10 are
/// answers of the session program and of the definitions, and of no call here.
#[derive(Clone, Copy, Debug, Eq, Hash, PartialEq)]
#[non_exhaustive]
pub enum Refusal {
    /// 1: a side of the map is not 1 to 1,024, or its tiles are not width times height.
    BadMap,
    /// 2: no seat has this id.
    BadId,
    /// 3: no tuning has this index.
    BadTuning,
    /// 4: a join with x or y outside -100,000 to 100,000.
    OutOfReach,
    /// 5: a join whose box is not clear of solid tiles.
    NotClear,
    /// 7: a join of an id that is present.
    Present,
    /// 8: an id that is absent.
    Absent,
    /// 9: a walk of 65,537 turns or more.
    TooFar,
    /// 11: packed bytes that end before the last number is complete.
    BytesEnd,
    /// 12: a packed number that is not in its shortest form, or too large.
    BadBytes,
    /// 13: the [`Role`](crate::Role) does not allow it. Comes before all others.
    NotAllowed,
    /// 14: a rectangle that has no tiles, a rectangle or a tile that reaches outside the map, or
    /// totals that are not one for each tile.
    BadArea,
    /// 15: a trial with no tunings or more than eight, or with steps outside 0 to 3,000.
    BadTrial,
    /// 16: a [hold](crate::Tuning::HookHold) outside [`SHORTEST_HOLD`](crate::SHORTEST_HOLD) to
    /// [`LONGEST_HOLD`](crate::LONGEST_HOLD), of a tune or of a trial's tunings.
    BadHold,
    /// 17: a buffer of the wrong length. Comes before all others but 13.
    BadLength,
    /// A number that has no name here. No function of this library gives one: who
    /// sees it has linked another library than these declarations are for.
    Unnamed(u32),
}

impl Refusal {
    /// What a call through C answered: 0 where it was accepted.
    pub fn of_answer(number: u32) -> Result<(), Refusal> {
        Err(match number {
            0 => return Ok(()),
            ffi::BAD_MAP => Refusal::BadMap,
            ffi::BAD_ID => Refusal::BadId,
            ffi::BAD_TUNING => Refusal::BadTuning,
            ffi::OUT_OF_REACH => Refusal::OutOfReach,
            ffi::NOT_CLEAR => Refusal::NotClear,
            ffi::PRESENT => Refusal::Present,
            ffi::ABSENT => Refusal::Absent,
            ffi::TOO_FAR => Refusal::TooFar,
            ffi::BYTES_END => Refusal::BytesEnd,
            ffi::BAD_BYTES => Refusal::BadBytes,
            ffi::NOT_ALLOWED => Refusal::NotAllowed,
            ffi::BAD_AREA => Refusal::BadArea,
            ffi::BAD_TRIAL => Refusal::BadTrial,
            ffi::BAD_HOLD => Refusal::BadHold,
            ffi::BAD_LENGTH => Refusal::BadLength,
            other => Refusal::Unnamed(other),
        })
    }

    /// The number that the C interface answers.
    pub fn number(self) -> u32 {
        match self {
            Refusal::BadMap => ffi::BAD_MAP,
            Refusal::BadId => ffi::BAD_ID,
            Refusal::BadTuning => ffi::BAD_TUNING,
            Refusal::OutOfReach => ffi::OUT_OF_REACH,
            Refusal::NotClear => ffi::NOT_CLEAR,
            Refusal::Present => ffi::PRESENT,
            Refusal::Absent => ffi::ABSENT,
            Refusal::TooFar => ffi::TOO_FAR,
            Refusal::BytesEnd => ffi::BYTES_END,
            Refusal::BadBytes => ffi::BAD_BYTES,
            Refusal::NotAllowed => ffi::NOT_ALLOWED,
            Refusal::BadArea => ffi::BAD_AREA,
            Refusal::BadTrial => ffi::BAD_TRIAL,
            Refusal::BadHold => ffi::BAD_HOLD,
            Refusal::BadLength => ffi::BAD_LENGTH,
            Refusal::Unnamed(number) => number,
        }
    }
}

impl Display for Refusal {
    fn fmt(&self, formatter: &mut Formatter<'_>) -> Written {
        let words = match self {
            Refusal::BadMap => "the sides of the map do not fit its tiles",
            Refusal::BadId => "no seat has this id",
            Refusal::BadTuning => "no tuning has this index",
            Refusal::OutOfReach => "the place is out of reach",
            Refusal::NotClear => "the place is not clear of solid tiles",
            Refusal::Present => "the id is present",
            Refusal::Absent => "the id is absent",
            Refusal::TooFar => "a walk has too many turns",
            Refusal::BytesEnd => "the bytes end before the record does",
            Refusal::BadBytes => "a packed number is not as it should be",
            Refusal::NotAllowed => "the role does not allow it",
            Refusal::BadArea => "the area is not one of the map, or its totals do not fit",
            Refusal::BadTrial => "the trial has too few or too many tunings or steps",
            Refusal::BadHold => "the hold has too few or too many steps",
            Refusal::BadLength => "a buffer has the wrong length",
            Refusal::Unnamed(_) => "refused",
        };
        write!(formatter, "{words} ({})", self.number())
    }
}

impl Error for Refusal {}

#[cfg(test)]
mod tests {
    use super::Refusal;

    #[test]
    fn every_number_comes_back() {
        for number in (0..100).chain([u32::MAX]) {
            let answer = Refusal::of_answer(number);
            assert_eq!(answer.map_or_else(Refusal::number, |()| 0), number);
        }
    }
}
