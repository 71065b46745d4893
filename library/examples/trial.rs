//! Before a hire: how near do three players come to the end of the course under eight gravities?
//!
//! ```sh
//! cargo run --release --example trial
//! ```

use ponguriena::trial::game_tunings;
use ponguriena::{CharacterId, Map, Nearest, Refusal, Trial, Tuning};

/// That of examples/race.txt: solid at `#`, hooks do not hold at `=`, deadly at `^`.
const COURSE: [&str; 12] = [
    "####################################",
    "#                                  #",
    "#                                  #",
    "#                       ==         #",
    "#                                  #",
    "#                 ##               #",
    "#                 ##               #",
    "#                 ##               #",
    "#                 ##               #",
    "#         #       ##               #",
    "#        ##       ##       ##^^^^^ #",
    "####################################",
];

/// Where the players start, by id; they stand on the ground.
const STARTS: [i32; 3] = [176, 112, 48];
const START_Y: i32 = 337;

/// The last tile before the wall, behind the spikes.
const TARGET: (i32, i32) = (34, 10);

/// The tuning that is tried, and its hundredths; 50 is the game's own.
const GRAVITY: usize = Tuning::Gravity as usize;
const GRAVITIES: [i32; 8] = [10, 20, 30, 40, 50, 60, 80, 100];

const STEPS: i32 = 500;

fn main() -> Result<(), Refusal> {
    let tiles = tiles();
    let map = Map {
        width: COURSE[0].len() as u32,
        height: COURSE.len() as u32,
        tiles: &tiles,
    };
    let mut trial = Trial::new();
    for (id, x) in CharacterId::all().zip(STARTS) {
        trial = trial.player(id, (x, START_Y), TARGET);
    }
    for gravity in GRAVITIES {
        let mut tunings = game_tunings();
        tunings[GRAVITY] = gravity;
        trial = trial.tuning(tunings);
    }
    println!("gravity  steps   tiles from the target (step)");
    for (gravity, run) in GRAVITIES.iter().zip(trial.run(&map, STEPS)?) {
        print!("{:>7.2} {:>6}", f64::from(*gravity) / 100.0, run.steps);
        for Nearest { distance, step, .. } in run.nearest {
            print!(" {distance:>4} ({step:>3})");
        }
        println!();
    }
    Ok(())
}

/// Bytes 1 and 3 are solid, 2 is deadly.
fn tiles() -> Vec<u8> {
    let tile = |letter| match letter {
        '#' => 1,
        '^' => 2,
        '=' => 3,
        _ => 0,
    };
    let letters = COURSE.iter().flat_map(|row| row.chars());
    letters.map(tile).collect()
}
