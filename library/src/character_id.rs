//! Who sits where.

use crate::ffi;
use core::fmt::{Display, Formatter, Result as Written};

/// Names a seat, 0 to 63, as libtw2 does. Any other number is taken too, and refused as
/// [`Refusal::BadId`](crate::Refusal::BadId).
///
/// ```
/// use ponguriena::CharacterId;
///
/// assert_eq!(CharacterId::all().next(), Some(CharacterId(0)));
/// assert_eq!(CharacterId::all().last(), Some(CharacterId(63)));
/// assert_eq!(CharacterId(7).to_string(), "7");
/// ```
#[derive(Clone, Copy, Debug, Default, Eq, Hash, Ord, PartialEq, PartialOrd)]
pub struct CharacterId(pub u32);

impl CharacterId {
    /// Those of all seats, by rising id.
    pub fn all() -> impl DoubleEndedIterator<Item = CharacterId> + ExactSizeIterator {
        // Sixty-four fit.
        (0..ffi::SEATS as u32).map(CharacterId)
    }

    /// As a call has it. One beyond i32 is the largest there: no seat has either.
    #[inline]
    pub(crate) const fn number(self) -> i32 {
        if self.0 > i32::MAX.cast_unsigned() {
            return i32::MAX;
        }
        self.0.cast_signed()
    }

    /// Of a number that was told. One below 0, which nobody tells, is one that no seat has.
    #[inline]
    pub(crate) const fn of_number(number: i32) -> CharacterId {
        CharacterId(number.cast_unsigned())
    }
}

impl Display for CharacterId {
    fn fmt(&self, formatter: &mut Formatter<'_>) -> Written {
        Display::fmt(&self.0, formatter)
    }
}

impl From<u8> for CharacterId {
    fn from(id: u8) -> CharacterId {
        CharacterId(id.into())
    }
}
