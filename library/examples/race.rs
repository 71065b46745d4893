//! A small race: three players run to the right, over a step, a wall and spikes, and
//! the positions are printed every few steps. One hooks the ceiling, one jumps and
//! dies on the spikes, one only runs, and is stopped.
//!
//! ```sh
//! cargo run --release --example race
//! ```

use ponguriena::{CharacterCore, CharacterId, Map, PlayerInput, Records, Refusal, Role, World};

/// Solid at `#`; hooks do not hold at `=`; deadly at `^`.
const COURSE: [&str; 10] = [
    "################################",
    "#                              #",
    "#                              #",
    "#                     ==       #",
    "#                              #",
    "#                              #",
    "#             #                #",
    "#             #                #",
    "#        #    #   ^^^^         #",
    "################################",
];

/// The players' names, by id, and where they start.
const PLAYERS: [(&str, i32); 3] = [("climber", 130), ("jumper", 90), ("runner", 50)];

const START_Y: i32 = 273;
const STEPS: usize = 120;
const PRINTED_EVERY: usize = 10;

const RIGHT: PlayerInput = PlayerInput {
    direction: 1,
    target_x: 60,
    target_y: -100,
    jump: 0,
    hook: 0,
};

fn main() -> Result<(), Refusal> {
    let tiles = tiles();
    let map = Map {
        width: COURSE[0].len() as u32,
        height: COURSE.len() as u32,
        tiles: &tiles,
    };
    let mut world = World::fresh();
    for (id, (_, x)) in CharacterId::all().zip(PLAYERS) {
        world.join(Role::Referee, &map, id, x, START_Y)?;
    }
    for step in 1..=STEPS {
        tell(&mut world, step)?;
        let records = world.step(Role::Referee, &map)?;
        if step % PRINTED_EVERY == 0 {
            print_records(step, &records);
        }
        for &id in records.removed() {
            let name = name_of(id);
            println!("step {step:>3} {name:>7}: dead");
        }
    }
    Ok(())
}

/// Everybody who is alive wants something else before each step.
fn tell(world: &mut World, step: usize) -> Result<(), Refusal> {
    for (id, (name, _)) in CharacterId::all().zip(PLAYERS) {
        if let Ok(core) = world.record(Role::Referee, id) {
            world.input(Role::Referee, id, input(name, &core, step))?;
        }
    }
    Ok(())
}

/// Bytes 1 and 3 are solid, 2 is deadly.
fn tiles() -> Vec<u8> {
    let tile = |letter| match letter {
        '#' => 1,
        '^' => 2,
        '=' => 3,
        _ => 0,
    };
    COURSE
        .iter()
        .flat_map(|row| row.chars().map(tile))
        .collect()
}

/// What a player wants, from where it is.
fn input(name: &str, core: &CharacterCore, step: usize) -> PlayerInput {
    // A button must be let go before it counts again.
    let pressed = i32::from(step % 20 < 10);
    match name {
        "jumper" => PlayerInput {
            jump: pressed,
            ..RIGHT
        },
        "climber" => PlayerInput {
            hook: i32::from(core.y > 90),
            ..RIGHT
        },
        _ => RIGHT,
    }
}

fn name_of(id: CharacterId) -> &'static str {
    PLAYERS[id.0 as usize].0
}

fn print_records(step: usize, records: &Records) {
    for (id, core) in records {
        let name = name_of(id);
        let (x, y) = (core.x, core.y);
        let [vel_x, vel_y] = [core.vel_x, core.vel_y].map(|speed| f64::from(speed) / 256.0);
        println!("step {step:>3} {name:>7}: at {x:>4} {y:>3}, velocity {vel_x:>6.2} {vel_y:>6.2}");
    }
}
