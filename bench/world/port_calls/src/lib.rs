//! The calls of the harness, made on the port.

mod sending;

pub use sending::{PortLink, PortSent};

use harness::Call;
use original::input_numbers;
use ponguriena::Role::Referee;
use ponguriena::{CharacterId, Map, PlayerInput, Records, Refusal, World, buffers};

/// A map of the harness, as the port takes it.
pub fn lent(map: &tile_map::Map) -> Map<'_> {
    Map {
        width: map.width as u32,
        height: map.height as u32,
        tiles: &map.tiles,
    }
}

/// As the referee. Records after an accepted step.
pub fn call(world: &mut World, map: &Map, call: Call) -> Result<Option<Records>, Refusal> {
    match call {
        Call::Join { id, x, y } => world.join(Referee, map, id_of(id), x, y)?,
        Call::Leave { id } => world.leave(Referee, id_of(id))?,
        Call::Input { id, input } => world.input(Referee, id_of(id), input_of(input))?,
        Call::Step => return world.step(Referee, map).map(Some),
        Call::Tune { index, hundredths } => world.tune(Referee, index, hundredths)?,
    }
    Ok(None)
}

/// As the role of that number. An accepted step writes the records and who is removed.
/// Answers how many they are.
pub fn call_on(
    role: i32,
    world: &mut [i32],
    map: &Map,
    call: Call,
    records: &mut [i32],
    removed: &mut [i32],
) -> Result<usize, Refusal> {
    match call {
        Call::Join { id, x, y } => buffers::join(role, world, map, id, x, y)?,
        Call::Leave { id } => buffers::leave(role, world, id)?,
        Call::Input { id, input } => buffers::input(role, world, id, input_of(input))?,
        Call::Step => return buffers::step(role, world, map, records, removed),
        Call::Tune { index, hundredths } => buffers::tune(role, world, index, hundredths)?,
    }
    Ok(0)
}

/// Any number of the harness, as the port's safe types take it: one below 0 has no seat there
/// either.
pub fn id_of(id: i32) -> CharacterId {
    CharacterId(id.cast_unsigned())
}

/// 0 where it was accepted.
pub fn number<T>(answer: &Result<T, Refusal>) -> u32 {
    answer
        .as_ref()
        .map_or_else(|refusal| refusal.number(), |_| 0)
}

pub fn input_of(input: libtw2_gamenet::snap_obj::PlayerInput) -> PlayerInput {
    PlayerInput::from_numbers(input_numbers(input))
}
