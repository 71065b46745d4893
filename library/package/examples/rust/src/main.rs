//! One player joins above a floor, runs to the right and falls; each step's record is printed.

use ponguriena::{CharacterId, Map, PlayerInput, Refusal, Role, World};

const ID: CharacterId = CharacterId(7);
const STEPS: usize = 20;

/// Three rows of open tiles above one that is solid.
const MAP: Map = Map {
    width: 8,
    height: 4,
    tiles: b"\0\0\0\0\0\0\0\0\0\0\0\0\0\0\0\0\0\0\0\0\0\0\0\0\x01\x01\x01\x01\x01\x01\x01\x01",
};

fn main() -> Result<(), Refusal> {
    let mut world = World::fresh();
    world.join(Role::Referee, &MAP, ID, 20, 40)?;
    let right = PlayerInput {
        direction: 1,
        target_y: -1,
        ..PlayerInput::default()
    };
    world.input(Role::Seat(ID), ID, right)?;
    for step in 1..=STEPS {
        for (_, core) in &world.step(Role::Referee, &MAP)? {
            println!("step {step}: x {}, y {}", core.x, core.y);
        }
    }
    Ok(())
}
