//! Time per step of a whole world, by the port through its C interface and by
//! document 01's world over libtw2. The latter is timed with the aim angle found
//! in three ways: by a scan of all entries, as document 01 says it, by halving, and
//! by the port's own function. Ratios below 1 say that the port is faster. The table of sending
//! has the port alone, with a sender beside its world and without, and so has that of the calls that
//! have no counterpart; those of trials and searches have whole ones beside their steps alone, with
//! the port's own angle.

mod alone;
mod calls;
mod play;
mod scene;
mod scenes;
mod searches;
mod sending;
mod sides;
mod trials;
mod wholes;

use original::find_angles_by;
use play::{compare, per_step, times};
use reference::{Xorshift, net_angle, scanned_angle};
use scene::{ROUNDS, Scene};
use sides::{Original, Port};
use timing::least_times;

fn main() {
    let mut random = Xorshift::default();
    let games = scenes::games(&mut random);
    print_steps(&games);
    print_steps(&scenes::by_players(&mut random));
    print_steps(&scenes::by_speed(&mut random));
    print_steps(&scenes::by_map(&mut random));
    let crowds = scenes::crowds(&mut random);
    calls::print_calls(&crowds);
    println!();
    crowds.iter().take(1).for_each(alone::print_alone);
    println!();
    sending::print_sending(&games);
    println!();
    trials::print_trials(&mut random);
    println!();
    searches::print_searches(&games);
}

fn print_steps(scenes: &[Scene]) {
    print_heading();
    scenes.iter().for_each(print_row);
    println!();
}

fn print_heading() {
    println!(
        "{:<30} {:>6} {:>6} {:>9} {:^26} {:^23}",
        "", "mean", "above", "port", "libtw2, microseconds", "ratio"
    );
    println!(
        "{:<30} {:>6} {:>6} {:>9} {:>8} {:>8} {:>8} {:>7} {:>7} {:>7}",
        "scene", "speed", "ramp", "us", "scan", "halving", "port's", "scan", "halving", "port's"
    );
}

fn print_row(scene: &Scene) {
    compare(scene);
    let by = |angles: fn(i32, i32) -> i32| {
        move || {
            find_angles_by(angles);
            times::<Original>(scene)
        }
    };
    let [port, rust @ ..] = least_times(
        ROUNDS,
        [
            &mut || times::<Port>(scene),
            &mut by(scanned_angle),
            &mut by(net_angle),
            &mut by(parts::net_angle),
        ],
    )
    .map(per_step);
    let (speed, fast) = (scene.speeds.mean(), scene.speeds.fast());
    print!("{:<30} {speed:>6.1} {fast:>5.0}% {port:>9.2}", scene.name);
    rust.iter().for_each(|time| print!(" {time:>8.2}"));
    rust.iter().for_each(|time| print!(" {:>7.2}", port / time));
    println!();
}
