//! What goes to the screens, on the server's side.

use crate::buffers::{RECORDS_NUMBERS, SEATS};
use crate::character_id::CharacterId;
use crate::layout::assert_layout;
use crate::map::Map;
use crate::passed::PassedAlong;
use crate::refusal::Refusal;
use crate::role::Role;
use crate::send_buffers::{self, SENDER_NUMBERS};
use crate::world::{Records, World};

/// Sends a seat only where it surprises.
///
/// It keeps a copy of each seat as last sent, with the input of that time, and steps the
/// copy as if nobody else were there. A step sends the record and the input of a seat
/// where the copy's record differs from the true one, where the copy was refused with 9, at
/// the first accepted step after a join, and at the 150th after the seat's last message. A
/// [`Screen`](crate::Screen) to which all that is passed along arrives in order has after
/// each accepted step the record that the step took of everybody who is still present.
///
/// It goes with one [`World`] from the start. Joins and inputs are calls on the world; to
/// leave, to tune and to step go through the sender, and are the referee's as they are there.
///
/// ```
/// use ponguriena::{CharacterId, Map, Refusal, Role, Screen, Sender, World};
///
/// let map = Map { width: 1, height: 1, tiles: &[0] };
/// let (mut world, mut sender, mut screen) = (World::fresh(), Sender::fresh(), Screen::fresh());
/// world.join(Role::Referee, &map, CharacterId(7), 20, 48)?;
/// for _ in 0..10 {
///     let (records, passed) = sender.step(Role::Referee, &mut world, &map)?;
///     screen.receive(&map, passed.numbers())?;
///     for (id, core) in &records {
///         assert_eq!(screen.shown(id), Ok(core));
///     }
/// }
/// // Who falls alone is no surprise.
/// let (_, passed) = sender.step(Role::Referee, &mut world, &map)?;
/// assert_eq!(passed.numbers(), [0]);
/// # Ok::<(), Refusal>(())
/// ```
#[derive(Clone, Debug, Eq, PartialEq)]
pub struct Sender {
    numbers: [i32; SENDER_NUMBERS],
}

impl Sender {
    /// For a fresh world: nothing was sent yet.
    ///
    /// # Panics
    ///
    /// As [`World::fresh`].
    pub fn fresh() -> Sender {
        assert_layout();
        let mut numbers = [0; SENDER_NUMBERS];
        // Only another length is refused, and then every later call answers so too.
        let _ = send_buffers::fresh_sender(&mut numbers);
        Sender { numbers }
    }

    /// A sender that was kept as numbers; [`send_buffers`] says what any numbers mean.
    ///
    /// # Panics
    ///
    /// As [`World::fresh`].
    pub fn from_numbers(numbers: [i32; SENDER_NUMBERS]) -> Sender {
        assert_layout();
        Sender { numbers }
    }

    /// The whole sender as numbers, to be kept beside those of its world.
    pub fn numbers(&self) -> &[i32; SENDER_NUMBERS] {
        &self.numbers
    }

    /// [`World::leave`], passed along.
    pub fn leave(
        &mut self,
        role: Role,
        world: &mut World,
        id: CharacterId,
    ) -> Result<PassedAlong, Refusal> {
        let (role, world, sender) = (role.number(), world.numbers_mut(), &mut self.numbers);
        PassedAlong::by(|passed| send_buffers::leave(role, world, sender, id.number(), passed))
    }

    /// [`World::tune`], passed along, also where it changes nothing.
    pub fn tune(
        &mut self,
        role: Role,
        world: &mut World,
        tuning: impl Into<i32>,
        value: i32,
    ) -> Result<PassedAlong, Refusal> {
        let index = tuning.into();
        let (role, world, sender) = (role.number(), world.numbers_mut(), &mut self.numbers);
        PassedAlong::by(|passed| send_buffers::tune(role, world, sender, index, value, passed))
    }

    /// [`World::step`], passed along: a mark, the messages by rising id, the removals.
    pub fn step(
        &mut self,
        role: Role,
        world: &mut World,
        map: &Map<'_>,
    ) -> Result<(Records, PassedAlong), Refusal> {
        let (role, world, sender) = (role.number(), world.numbers_mut(), &mut self.numbers);
        let (mut records, mut removed) = ([0; RECORDS_NUMBERS], [0; SEATS]);
        let mut removed_count = 0;
        let passed = PassedAlong::by(|passed| {
            let counts =
                send_buffers::step(role, world, sender, map, &mut records, &mut removed, passed)?;
            removed_count = counts.removed;
            Ok(counts.passed)
        })?;
        Ok((Records::new(records, removed, removed_count), passed))
    }
}

impl Default for Sender {
    /// As [`Sender::fresh`].
    fn default() -> Sender {
        Sender::fresh()
    }
}
