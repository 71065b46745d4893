//! The slowest calls: the processor time of the last step of known scenes, then, for each call that
//! steps, the slowest that hill climbing finds from them by legal calls. Prints rows of tables.
//!
//! ```sh
//! worst EVALUATIONS SEED FOLDER
//! ```
//!
//! For each call so many changed scenes are measured. The calls of the slowest one are written to
//! the folder as a session text, which the session program takes up to 65,536 bytes; for a trial
//! its tunings and joins, with the tiles that are run for as aims.

mod change;
mod climb;
mod clock;
mod cost;
mod ground;
mod link;
mod scene;
mod scenes;
#[cfg(test)]
mod tests;
mod text;

use climb::{Found, climb, ranked};
use cost::{Call, search_time, trial_step};
use reference::Xorshift;
use scene::Scene;
use std::error::Error;
use std::path::Path;
use std::{env, fs};

/// A trial of legal size has eight tunings of 3,000 steps each; so many of one are measured.
const TRIAL_STEPS: f64 = 24_000.0;
const TRIED: i32 = 300;

/// The least of so many times is printed, but for searches and trials, which are long.
const ROUNDS: usize = 5;

fn main() -> Result<(), Box<dyn Error>> {
    let arguments: Vec<String> = env::args().skip(1).collect();
    let [evaluations, seed, folder] = &arguments[..] else {
        return Err("EVALUATIONS, SEED and FOLDER are to be named".into());
    };
    let (evaluations, seed) = (evaluations.parse()?, seed.parse()?);
    let scenes = scenes::scenes();
    print_scenes(&scenes);
    println!("\n| call | slowest scene | ms | found, ms |\n|---|---|---|---|");
    for call in Call::ALL {
        let known = ranked(call, &scenes);
        let found = climb(call, &known, evaluations, &mut Xorshift::seeded(seed));
        let pair = [&known[0].scene, &found.scene];
        let times = compared(call, pair);
        print_call(call, pair[0], times);
        write_text(
            call,
            pair[usize::from(times[1] > times[0])],
            Path::new(folder),
        )?;
    }
    Ok(())
}

/// But for those whose step is refused.
fn print_scenes(scenes: &[Scene]) {
    println!("| scene, 64 players | slowest step, ms |\n|---|---|");
    let far = [scenes::far_scene()];
    for scene in scenes.iter().chain(&far) {
        let found = Found::measured(Call::Step, scene);
        if found.milliseconds > 0.0 {
            println!("| {} | {:.2} |", scene.name, found.milliseconds);
        }
    }
}

/// A scene and the one that was found, anew and in turn: the slowest of many measurements is often
/// the one that other work on the machine has disturbed most.
fn compared(call: Call, pair: [&Scene; 2]) -> [f64; 2] {
    let rounds = match call {
        Call::Search | Call::TrialStep => 1,
        _ => ROUNDS,
    };
    let mut least = [f64::INFINITY; 2];
    for _ in 0..rounds {
        for (least, scene) in least.iter_mut().zip(pair) {
            *least = least.min(whole(call, scene));
        }
    }
    least
}

fn print_call(call: Call, scene: &Scene, times: [f64; 2]) {
    let (title, _) = names(call);
    let [known, found] = times.map(|time| written(call, time));
    println!("| {title} | {} | {known} | {found} |", scene.name);
}

/// In a table, and for a file.
fn names(call: Call) -> (&'static str, &'static str) {
    match call {
        Call::Step => ("step", "step"),
        Call::RefusedStep => ("step, refused with 9", "refused_step"),
        Call::SendStep => ("send_step", "send_step"),
        Call::ReceiveMark => ("receive, a mark", "mark"),
        Call::Search => ("search", "search"),
        Call::TrialStep => ("trial, a step of it (24,000 steps)", "trial"),
    }
}

/// A whole search, and a trial of more steps than while it was searched for.
fn whole(call: Call, scene: &Scene) -> f64 {
    match call {
        Call::Search => search_time(scene),
        Call::TrialStep => trial_step(scene, TRIED),
        _ => call.cost(scene),
    }
}

fn written(call: Call, time: f64) -> String {
    match call {
        Call::Search => format!("{time:.0}"),
        Call::TrialStep => format!("{time:.2} ({:.0} s)", time * TRIAL_STEPS / 1e3),
        _ => format!("{time:.2}"),
    }
}

/// With a map of its own where the steps are made on another than the joins.
fn write_text(call: Call, scene: &Scene, folder: &Path) -> Result<(), Box<dyn Error>> {
    let (_, name) = names(call);
    let text = folder.join(format!("worst_{name}.in"));
    fs::write(text, text::session_text(scene))?;
    let map = folder.join(format!("worst_{name}.map"));
    match &scene.stepped_on {
        Some(ground) => fs::write(map, text::map_text(&ground.smallest()))?,
        None if map.exists() => fs::remove_file(map)?,
        None => (),
    }
    Ok(())
}
