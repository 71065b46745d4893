//! One character's tick and one character's move among the others.

use crate::others::Others;
use crate::refusal::Refusal;
use crate::slot::Slots;
use crate::tunings::Tuning;
use crate::walks::Walks;
use original::{CHARACTER_SIZE, Character, Collision, Hook, MAX_HOOK_GRAB_TIME, State, vec2};
use tile_map::Map;

/// What is the same for everybody in a step.
#[derive(Clone, Copy)]
pub struct Rules<'a> {
    pub map: &'a Map,
    pub tuning: &'a Tuning,
}

impl Rules<'_> {
    /// What `tick` finds out and keeps to itself: whether one of two points below is solid.
    pub fn grounded(self, character: Character) -> bool {
        let pos = State::from(character).pos;
        let below = |x: f32| pos + vec2::new(x, CHARACTER_SIZE / 2.0 + 5.0);
        let mut map = self.map;
        [-CHARACTER_SIZE / 2.0, CHARACTER_SIZE / 2.0]
            .into_iter()
            .any(|x| map.check_point(below(x)).is_some())
    }

    /// Whether a corner of its box is on a deadly tile.
    pub fn on_spikes(self, character: Character) -> bool {
        let pos = State::from(character).pos;
        let half = CHARACTER_SIZE / 2.0;
        let corners = [(-half, -half), (half, -half), (-half, half), (half, half)];
        corners
            .into_iter()
            .any(|(x, y)| self.map.is_deadly(pos + vec2::new(x, y)))
    }

    /// Changes the velocities of others that are dragged; after a refusal they are void.
    pub fn ticked(self, slots: &mut Slots, id: usize) -> Result<Character, Refusal> {
        let me = self.timed(slots[id].character);
        let input = slots[id].input;
        self.walked(me, &mut Others::new(id, slots), |me, walks, others| {
            me.tick(walks, others, input, &self.tuning.params)
        })
    }

    /// Leaves the others as they are.
    pub fn moved(self, slots: &mut Slots, id: usize) -> Result<Character, Refusal> {
        let me = slots[id].character;
        self.walked(me, &mut Others::new(id, slots), |me, walks, others| {
            me.move_(walks, others, &self.tuning.params)
        })
    }

    /// A hook that has held for the hold is handed to `tick` as one that has held for as long as
    /// libtw2 lets it: that takes it back. All others are below that time, so they are counted up.
    fn timed(self, character: Character) -> Character {
        let state = State::from(character);
        match state.hook {
            Hook::Grabbed(id, tick) if tick >= self.tuning.hold => State {
                hook: Hook::Grabbed(id, MAX_HOOK_GRAB_TIME),
                ..state
            }
            .into(),
            _ => character,
        }
    }

    fn walked(
        self,
        mut me: Character,
        others: &mut Others,
        act: impl FnOnce(&mut Character, &mut Walks, &mut Others),
    ) -> Result<Character, Refusal> {
        let player_collision = self.tuning.params.player_collision.to_float() != 0.0;
        let mut walks = Walks::new(self.map, player_collision);
        act(&mut me, &mut walks, others);
        walks.answer()?;
        Ok(me)
    }
}
