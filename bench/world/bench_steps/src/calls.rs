//! Time per call of the calls that are not steps.

use crate::scene::Scene;
use crate::sides::{Original, Port, Side};
use harness::Call;
use harness::tunings::TUNINGS;
use timing::{print_heading, print_row};

const PASSES: usize = 50;

/// Somebody alone is told something less than once in two blocks.
const INPUTS: usize = 16;

/// What every tuning may be set to, the hold too.
const TUNED: i32 = 50;

pub fn print_calls(scenes: &[Scene]) {
    print_heading();
    for scene in scenes {
        print_calls_in(scene);
    }
}

/// On the worlds with which the scene begins.
fn print_calls_in(scene: &Scene) {
    let inputs = scene.blocks.iter().flatten().copied();
    print_call("input", scene, &inputs.take(INPUTS).collect::<Vec<Call>>());
    let tunes = (0..TUNINGS as i32).map(|index| Call::Tune {
        index,
        hundredths: TUNED,
    });
    print_call("tune", scene, &tunes.collect::<Vec<Call>>());
    let is_join = |call: &&Call| matches!(call, Call::Join { .. });
    let joins = scene.start.iter().filter(is_join);
    let leaves = (0..).map(|id| Call::Leave { id });
    let both = leaves.zip(joins).flat_map(|(leave, &join)| [leave, join]);
    print_call("leave, join", scene, &both.collect::<Vec<Call>>());
}

fn print_call(name: &str, scene: &Scene, calls: &[Call]) {
    let (mut port, mut original) = (Port::begun(scene), Original::begun(scene));
    let port = |call| port.call(call);
    print_row(name, &scene.name, PASSES, calls, port, |call| {
        original.call(call)
    });
}
