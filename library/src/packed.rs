//! Records as the game's packed whole numbers, for a relay.
//!
//! A number has one to five bytes: in the first, bit 7 says that more follows, bit 6 is
//! the sign, and the low six bits are the lowest of the value; later bytes give seven
//! bits each, again with bit 7 for more. A negative n is kept as -1 - n. A record is its
//! fifteen numbers in the order of [`CharacterCore`]'s fields.
//!
//! ```
//! use ponguriena::{CharacterCore, Refusal, packed};
//!
//! let core = CharacterCore { x: 64, y: -1, ..CharacterCore::default() };
//! let (bytes, count) = packed::pack(core);
//! assert_eq!(bytes[..5], [0x00, 0x80, 0x01, 0x40, 0x00]);
//! assert_eq!(packed::unpack(&bytes), Ok((core, count)));
//! assert_eq!(packed::unpack(&bytes[..count - 1]), Err(Refusal::BytesEnd));
//! ```

use crate::ffi;
use crate::refusal::Refusal;
use crate::snap_obj::{CORE_NUMBERS, CharacterCore};

/// The most bytes of a record.
pub const MOST_PACKED: usize = ffi::PACKED;

/// A record's bytes, and how many they are: 15 to [`MOST_PACKED`]. Those past the count
/// are 0.
pub fn pack(core: CharacterCore) -> ([u8; MOST_PACKED], usize) {
    let record = core.numbers();
    let mut bytes = [0; MOST_PACKED];
    let mut count = 0;
    // SAFETY: every pointer points to as many elements as is said, and what is written is
    // borrowed for writing. Both lengths are right, so the answer is 0.
    unsafe {
        ffi::ponguriena_pack(
            record.as_ptr(),
            record.len(),
            bytes.as_mut_ptr(),
            bytes.len(),
            &mut count,
        )
    };
    (bytes, count)
}

/// The record that bytes start with, and how many of them it used; what follows is not
/// looked at.
///
/// # Errors
///
/// [`Refusal::BytesEnd`] where the bytes end before the fifteenth number is complete,
/// [`Refusal::BadBytes`] where a number is not in its shortest form or its fifth byte has a
/// bit above the lowest four. The first number at fault decides.
pub fn unpack(bytes: &[u8]) -> Result<(CharacterCore, usize), Refusal> {
    let mut record = [0; CORE_NUMBERS];
    let mut used = 0;
    // SAFETY: as in `pack`.
    let number = unsafe {
        ffi::ponguriena_unpack(
            bytes.as_ptr(),
            bytes.len(),
            record.as_mut_ptr(),
            record.len(),
            &mut used,
        )
    };
    Refusal::of_answer(number)?;
    Ok((CharacterCore::from_numbers(record), used))
}
