//! What a screen makes of what is passed along.

use crate::character_id::CharacterId;
use crate::layout::assert_layout;
use crate::map::Map;
use crate::refusal::Refusal;
use crate::send_buffers::{self, SCREEN_NUMBERS};
use crate::snap_obj::{CORE_NUMBERS, CharacterCore};

/// The seats as a screen has them: a copy of each that was sent, stepped since then as if
/// nobody else were there, and tunings of its own. [`Sender`](crate::Sender) is the other
/// side.
#[derive(Clone, Debug, Eq, PartialEq)]
pub struct Screen {
    numbers: [i32; SCREEN_NUMBERS],
}

impl Screen {
    /// For a fresh world: no copies, and the tunings of the game.
    ///
    /// # Panics
    ///
    /// As [`World::fresh`](crate::World::fresh).
    pub fn fresh() -> Screen {
        assert_layout();
        let mut numbers = [0; SCREEN_NUMBERS];
        // Only another length is refused, and then every later call answers so too.
        let _ = send_buffers::fresh_screen(&mut numbers);
        Screen { numbers }
    }

    /// A screen that was kept as numbers; [`send_buffers`] says what any numbers mean.
    ///
    /// # Panics
    ///
    /// As [`World::fresh`](crate::World::fresh).
    pub fn from_numbers(numbers: [i32; SCREEN_NUMBERS]) -> Screen {
        assert_layout();
        Screen { numbers }
    }

    /// The whole screen as numbers, to be kept.
    pub fn numbers(&self) -> &[i32; SCREEN_NUMBERS] {
        &self.numbers
    }

    /// Takes all that one call has passed along, which may be nothing, on the server's
    /// map; or none of it, where some of it is refused: [`Refusal::BadLength`] for numbers
    /// that are no whole thing, an id without a seat, a tuning that there is not. A map at
    /// fault is not refused, but a mark moves nobody then.
    ///
    /// ```
    /// # use ponguriena::{Map, Refusal, Screen};
    /// # let map = Map { width: 1, height: 1, tiles: &[0] };
    /// let mut screen = Screen::fresh();
    /// assert_eq!(screen.receive(&map, &[4, 12, 0, 3]), Err(Refusal::BadLength));
    /// assert_eq!(screen, Screen::fresh());
    /// assert_eq!(screen.receive(&map, &[4, 12, 0, 3, 5]), Ok(()));
    /// ```
    pub fn receive(&mut self, map: &Map<'_>, passed: &[i32]) -> Result<(), Refusal> {
        let mut screen = self.numbers;
        let mut rest = passed;
        while !rest.is_empty() {
            let used = send_buffers::receive(&mut screen, map, rest)?;
            // It ends whatever library is linked.
            rest = rest.get(used.max(1)..).unwrap_or_default();
        }
        self.numbers = screen;
        Ok(())
    }

    /// The record of an id. Refused: an id without a seat, and [`Refusal::Absent`] where
    /// there is no copy.
    pub fn shown(&self, id: CharacterId) -> Result<CharacterCore, Refusal> {
        let mut numbers = [0; CORE_NUMBERS];
        send_buffers::shown(&self.numbers, id.number(), &mut numbers)?;
        Ok(CharacterCore::from_numbers(numbers))
    }
}

impl Default for Screen {
    /// As [`Screen::fresh`].
    fn default() -> Screen {
        Screen::fresh()
    }
}
