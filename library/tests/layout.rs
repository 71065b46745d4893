//! The layout: which number stands where in a world, a sender, a screen and what is passed along.
//! A few calls are played, and the numbers compared with those that were recorded in tests/layout.
//!
//! Where this differs though nobody's physics changed, the layout has changed: raise LAYOUT in
//! crates/ponguriena and record the numbers under its name.
//!
//! ```sh
//! cargo test --test layout -- --ignored
//! ```

use ponguriena::Role::Referee;
use ponguriena::buffers::TUNINGS;
use ponguriena::{
    CharacterCore, CharacterId, HookState, INPUT_NUMBERS, LAYOUT, Map, Passed, PlayerInput,
    Refusal, Screen, Sender, World,
};
use std::error::Error;
use std::fs;
use std::path::{Path, PathBuf};

/// A floor, and at its end a deadly tile.
const MAP: Map = Map {
    width: 10,
    height: 3,
    tiles: &[
        0, 0, 0, 0, 0, 0, 0, 0, 0, 0, //
        0, 0, 0, 0, 0, 0, 0, 0, 0, 2, //
        1, 1, 1, 1, 1, 1, 1, 1, 1, 1,
    ],
};

/// Each another number, near that of the game.
const TUNED: [i32; TUNINGS] = [
    1001, 202, 53, 1324, 1205, 506, 157, 103, 38_009, 8010, 311, 1512, 63, 55_014, 200_015, 156,
    117, 118, 19,
];

/// Where one stands on the floor.
const FLOOR_Y: i32 = 49;
const SPIKES_X: i32 = 304;

/// Ids and where they stand. One leaves, and one is removed by the deadly tile.
const JOINS: [(CharacterId, i32); 5] = [
    (CharacterId(63), 240),
    (CharacterId(0), 40),
    (CharacterId(5), 140),
    (LEAVER, 200),
    (CharacterId(9), SPIKES_X),
];

const LEAVER: CharacterId = CharacterId(7);

/// The first hooks the second, who jumps and hooks too; the third stands still.
const INPUTS: [(CharacterId, [i32; INPUT_NUMBERS]); 3] = [
    (CharacterId(0), [-1, 60, 2, 0, 1]),
    (CharacterId(5), [1, -30, -40, 2, 3]),
    (CharacterId(63), [0, 20, 30, 0, 0]),
];

/// In the second who surprises nobody is not sent again.
const STEPS: usize = 2;

/// Names of buffers, and their numbers after the calls.
fn played() -> Result<[(&'static str, Vec<i32>); 4], Refusal> {
    let (mut world, mut sender, mut screen) = (World::fresh(), Sender::fresh(), Screen::fresh());
    let mut passed = Vec::new();
    for (index, value) in (0..).zip(TUNED) {
        passed.extend_from_slice(sender.tune(Referee, &mut world, index, value)?.numbers());
    }
    for (id, x) in JOINS {
        world.join(Referee, &MAP, id, x, FLOOR_Y)?;
    }
    passed.extend_from_slice(sender.leave(Referee, &mut world, LEAVER)?.numbers());
    for (id, numbers) in INPUTS {
        world.input(Referee, id, PlayerInput::from_numbers(numbers))?;
    }
    for _ in 0..STEPS {
        passed.extend_from_slice(sender.step(Referee, &mut world, &MAP)?.1.numbers());
    }
    for stray in strays() {
        screen.receive(&MAP, &stray.numbers())?;
    }
    screen.receive(&MAP, &passed)?;
    Ok([
        ("world", world.numbers().to_vec()),
        ("sender", sender.numbers().to_vec()),
        ("screen", screen.numbers().to_vec()),
        ("passed", passed),
    ])
}

/// Messages that no sender sent, for copies with flags: the first is removed in its own small
/// world, the second refused there, since its hook is too far away.
fn strays() -> [Passed; 2] {
    let removed = Passed::Message {
        id: CharacterId(20),
        core: CharacterCore {
            x: SPIKES_X,
            y: FLOOR_Y,
            ..CharacterCore::default()
        },
        input: PlayerInput::default(),
    };
    let refused = Passed::Message {
        id: CharacterId(21),
        core: CharacterCore {
            hook_state: HookState::Flying as i32,
            hook_x: 1_000_000,
            ..CharacterCore::default()
        },
        input: PlayerInput {
            hook: 1,
            ..PlayerInput::default()
        },
    };
    [removed, refused]
}

/// A line for each buffer.
fn lines() -> Result<[String; 4], Refusal> {
    Ok(played()?.map(|(name, numbers)| format!("{name} {}", words(&numbers))))
}

/// Zeros behind one another are told as `0x`, and how many they are.
fn words(numbers: &[i32]) -> String {
    let runs = numbers.chunk_by(|&number, &next| number == 0 && next == 0);
    let words = runs.map(|run| match run {
        [number] => number.to_string(),
        zeros => format!("0x{}", zeros.len()),
    });
    words.collect::<Vec<String>>().join(" ")
}

/// Where the numbers of this layout are.
fn recorded() -> PathBuf {
    let folder = Path::new(env!("CARGO_MANIFEST_DIR")).join("tests/layout");
    folder.join(format!("{LAYOUT}.txt"))
}

#[test]
fn numbers_stand_where_they_stood() -> Result<(), Box<dyn Error>> {
    let recorded = fs::read_to_string(recorded())?;
    let lines = lines()?;
    assert_eq!(recorded.lines().count(), lines.len());
    for (line, recorded) in lines.iter().zip(recorded.lines()) {
        assert_eq!(line, recorded);
    }
    Ok(())
}

/// What was recorded once is not written over.
#[test]
#[ignore = "writes the numbers of a new layout"]
fn record() -> Result<(), Box<dyn Error>> {
    let path = recorded();
    if !path.exists() {
        fs::write(path, lines()?.join("\n") + "\n")?;
    }
    Ok(())
}
