//! Who makes a call.

use crate::character_id::CharacterId;
use crate::ffi;

/// Whoever makes a call on a world or reads it names one of these. What the role does not
/// allow is refused with [`Refusal::NotAllowed`](crate::Refusal::NotAllowed) before all other
/// refusals, and changes nothing.
///
/// ```
/// use ponguriena::{CharacterId, Map, PlayerInput, Refusal, Role, World};
///
/// let map = Map { width: 1, height: 1, tiles: &[0] };
/// let mut world = World::fresh();
/// let [seven, eight] = [7, 8].map(CharacterId);
/// world.join(Role::Referee, &map, seven, 20, 48)?;
/// let right = PlayerInput { direction: 1, ..PlayerInput::default() };
/// assert_eq!(world.input(Role::Seat(seven), seven, right), Ok(()));
/// assert_eq!(world.input(Role::Seat(eight), seven, right), Err(Refusal::NotAllowed));
/// assert_eq!(world.record(Role::Board, seven)?.x, 20);
/// # Ok::<(), Refusal>(())
/// ```
#[derive(Clone, Copy, Debug, Eq, Hash, PartialEq)]
pub enum Role {
    /// May make every call and every read.
    Referee,
    /// May give the input of its own id, and nothing else.
    Seat(CharacterId),
    /// May read records and floor marks, and nothing else.
    Board,
}

impl Role {
    /// As the C interface and [`buffers`](crate::buffers) take it. Every id beyond i32 has the
    /// largest number there, which no seat has.
    ///
    /// ```
    /// use ponguriena::{CharacterId, Role};
    ///
    /// assert_eq!(Role::Referee.number(), -1);
    /// assert_eq!(Role::Seat(CharacterId(63)).number(), 63);
    /// assert_eq!(Role::Seat(CharacterId(u32::MAX)).number(), i32::MAX);
    /// assert_eq!(Role::Board.number(), -2);
    /// ```
    #[inline]
    pub const fn number(self) -> i32 {
        match self {
            Role::Referee => ffi::REFEREE,
            // The other roles are below 0, and no id is: whatever arrives at a server, no seat is
            // taken for one of them.
            Role::Seat(id) => id.number(),
            Role::Board => ffi::BOARD,
        }
    }
}
