//! The world, its five calls and what is read of it. A refused call leaves it as it was.

use crate::call::Call;
use crate::physics::Rules;
use crate::published::{NOTHING, Published};
use crate::refusal::Refusal;
use crate::slot::{SEATS, Slot, Slots, vacate};
use crate::tunings::{ORDINARY, TUNINGS, check_tuning, read_tuning, tuning_of};
use libtw2_gamenet::snap_obj::{CharacterCore, PlayerInput};
use original::{CHARACTER_SIZE, Character, Collision, State, vec2};
use tile_map::Map;

pub const LONGEST_SIDE: usize = 1024;
const FARTHEST: i32 = 100_000;

#[derive(Clone)]
pub struct World {
    pub slots: Slots,
    pub tunings: [i32; TUNINGS],
}

impl World {
    pub fn fresh() -> World {
        World {
            slots: [Slot::absent(); SEATS],
            tunings: ORDINARY,
        }
    }

    pub fn call(&mut self, map: &Map, call: Call) -> Result<Published, Refusal> {
        match call {
            Call::Join { id, x, y } => self.join(map, id, x, y)?,
            Call::Leave { id } => self.leave(id)?,
            Call::Input { id, input } => self.input(id, input)?,
            Call::Step => return self.step(map),
            Call::Tune { index, hundredths } => self.tune(index, hundredths)?,
        }
        Ok(NOTHING)
    }

    pub fn join(&mut self, map: &Map, id: i32, x: i32, y: i32) -> Result<(), Refusal> {
        check_map(map)?;
        let slot = &mut self.slots[seat(id)?];
        let within = -FARTHEST..=FARTHEST;
        Refusal::Place.when(!within.contains(&x) || !within.contains(&y))?;
        Refusal::NotClear.when(!is_clear(map, x, y))?;
        Refusal::Present.when(slot.present)?;
        *slot = Slot::joined(place(x, y));
        Ok(())
    }

    pub fn leave(&mut self, id: i32) -> Result<(), Refusal> {
        self.present(id)?;
        vacate(&mut self.slots, id as usize);
        Ok(())
    }

    pub fn input(&mut self, id: i32, input: PlayerInput) -> Result<(), Refusal> {
        self.present(id)?.input = input;
        Ok(())
    }

    pub fn tune(&mut self, index: i32, hundredths: i32) -> Result<(), Refusal> {
        let place = tuning_place(index)?;
        check_tuning(place, hundredths)?;
        self.tunings[place] = hundredths;
        Ok(())
    }

    pub fn step(&mut self, map: &Map) -> Result<Published, Refusal> {
        check_map(map)?;
        let tuning = &tuning_of(self.tunings);
        let rules = Rules { map, tuning };
        let mut slots = self.slots;
        tick_all(rules, &mut slots)?;
        let mut published = move_all(rules, &mut slots)?;
        published.removed = remove_dying(rules, &mut slots);
        self.slots = slots;
        Ok(published)
    }

    /// As the slot now stands, whatever the last step published.
    pub fn record(&mut self, id: i32) -> Result<CharacterCore, Refusal> {
        let character = self.present(id)?.character;
        Refusal::TickTooLarge.when(!State::from(character).has_record())?;
        Ok(character.to_net())
    }

    pub fn floor_mark(&mut self, id: i32) -> Result<bool, Refusal> {
        Ok(self.present(id)?.grounded)
    }

    pub fn stored_input(&mut self, id: i32) -> Result<PlayerInput, Refusal> {
        Ok(self.present(id)?.input)
    }

    pub fn tuning(&self, index: i32) -> Result<i32, Refusal> {
        Ok(read_tuning(&self.tunings, tuning_place(index)?))
    }

    fn present(&mut self, id: i32) -> Result<&mut Slot, Refusal> {
        let slot = &mut self.slots[seat(id)?];
        Refusal::Absent.when(!slot.present)?;
        Ok(slot)
    }
}

/// Each finds the others as they stand then.
fn tick_all(rules: Rules, slots: &mut Slots) -> Result<(), Refusal> {
    for id in 0..SEATS {
        if slots[id].present {
            let grounded = rules.grounded(slots[id].character);
            slots[id].character = rules.ticked(slots, id)?;
            slots[id].grounded = grounded;
        }
    }
    Ok(())
}

/// Each is quantized before the next one moves.
fn move_all(rules: Rules, slots: &mut Slots) -> Result<Published, Refusal> {
    let mut published = NOTHING;
    for id in 0..SEATS {
        if slots[id].present {
            let record = rules.moved(slots, id)?.to_net();
            slots[id].character = Character::from_net(&record);
            published.records[id] = Some(record);
        }
    }
    Ok(published)
}

/// As by a leave, where the step ended on spikes.
fn remove_dying(rules: Rules, slots: &mut Slots) -> [bool; SEATS] {
    let dying = slots.map(|slot| slot.present && rules.on_spikes(slot.character));
    for id in (0..SEATS).filter(|&id| dying[id]) {
        vacate(slots, id);
    }
    dying
}

/// Whether a character's box is clear there.
pub fn is_clear(mut map: &Map, x: i32, y: i32) -> bool {
    !map.check_box(place(x, y), vec2::new(CHARACTER_SIZE, CHARACTER_SIZE))
}

fn place(x: i32, y: i32) -> vec2 {
    vec2::new(x as f32, y as f32)
}

pub fn check_map(map: &Map) -> Result<(), Refusal> {
    let fits = |side: usize| (1..=LONGEST_SIDE).contains(&side);
    Refusal::Map.when(!fits(map.width) || !fits(map.height))?;
    Refusal::Map.when(map.tiles.len() != map.width * map.height)
}

/// The seat that has this id.
pub fn seat(id: i32) -> Result<usize, Refusal> {
    let seat = usize::try_from(id).map_err(|_| Refusal::Id)?;
    Refusal::Id.when(seat >= SEATS)?;
    Ok(seat)
}

/// The place of the tuning that has this index.
pub fn tuning_place(index: i32) -> Result<usize, Refusal> {
    let place = usize::try_from(index).map_err(|_| Refusal::TuningIndex)?;
    Refusal::TuningIndex.when(place >= TUNINGS)?;
    Ok(place)
}
