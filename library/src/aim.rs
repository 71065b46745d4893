//! The aim angle of a target.

use crate::ffi;

/// An aim angle, and how many entries of the angle tables were read to find it.
#[derive(Clone, Copy, Debug, Eq, Hash, PartialEq)]
pub struct Aim {
    /// In 256ths of a radian, -804 to 804.
    pub angle: i32,
    /// 0 for the target (0, 0), else 403 or, if the target's x is not above 0, 805 less the size
    /// of the angle; so 403 at most.
    pub entries_read: u32,
}

/// The aim angle of a target: the [`CharacterCore::angle`] that a step writes for a player whose
/// [`PlayerInput`] has this target. It has the sign of `target_y`. Nothing is refused.
///
/// ```
/// use ponguriena::{Aim, aim};
///
/// assert_eq!(aim(1, 1), Aim { angle: 201, entries_read: 202 });
/// assert_eq!(aim(0, -1), Aim { angle: -402, entries_read: 403 });
/// assert_eq!(aim(0, 0), Aim { angle: 0, entries_read: 0 });
/// ```
///
/// [`CharacterCore::angle`]: crate::CharacterCore::angle
/// [`PlayerInput`]: crate::PlayerInput
#[inline]
pub fn aim(target_x: i32, target_y: i32) -> Aim {
    let mut entries_read = 0;
    let angle = ffi::ponguriena_aim(target_x, target_y, &mut entries_read);
    Aim {
        angle,
        entries_read,
    }
}
