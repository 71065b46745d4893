//! Hill climbing: a scene is changed a little, and the change is kept where the call gets slower.

use crate::change::changed;
use crate::cost::Call;
use crate::scene::Scene;
use reference::Xorshift;

/// So many of the scenes are climbed from, the slowest.
const STARTS: usize = 4;

/// A scene counts with the least of so many times, so that little of what else the machine does is
/// in it.
const REPEATS: usize = 3;

/// A scene that is longer is not climbed from.
const MOST_STEPS: usize = 20;

#[derive(Clone)]
pub struct Found {
    pub scene: Scene,
    pub milliseconds: f64,
}

impl Found {
    pub fn measured(call: Call, scene: &Scene) -> Found {
        let times = (0..REPEATS).map(|_| call.cost(scene));
        Found {
            scene: scene.clone(),
            milliseconds: times.fold(f64::INFINITY, f64::min),
        }
    }
}

/// All scenes, the slowest first.
pub fn ranked(call: Call, scenes: &[Scene]) -> Vec<Found> {
    let mut all: Vec<Found> = scenes
        .iter()
        .map(|scene| Found::measured(call, scene))
        .collect();
    all.sort_by(|one, other| other.milliseconds.total_cmp(&one.milliseconds));
    all
}

/// The slowest that was found from the slowest scenes, with so many changes in all.
pub fn climb(call: Call, ranked: &[Found], evaluations: usize, random: &mut Xorshift) -> Found {
    let short = |found: &&Found| found.scene.steps <= MOST_STEPS;
    let all: Vec<Scene> = ranked.iter().map(|found| found.scene.clone()).collect();
    let starts = ranked.iter().filter(short).take(STARTS);
    let climbed = starts.map(|start| climb_from(call, start, &all, evaluations / STARTS, random));
    let slowest = climbed.max_by(|one, other| one.milliseconds.total_cmp(&other.milliseconds));
    slowest.expect("there are scenes")
}

fn climb_from(
    call: Call,
    start: &Found,
    others: &[Scene],
    evaluations: usize,
    random: &mut Xorshift,
) -> Found {
    let mut slowest = start.clone();
    for _ in 0..evaluations {
        let scene = changed(&slowest.scene, others, random);
        // Measured again before it counts.
        if call.cost(&scene) > slowest.milliseconds {
            let found = Found::measured(call, &scene);
            if found.milliseconds > slowest.milliseconds {
                slowest = found;
            }
        }
    }
    slowest
}
