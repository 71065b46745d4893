//! The processor time of a call in a scene, in milliseconds.

use crate::clock::timed;
use crate::link::Link;
use crate::scene::Scene;
use ponguriena::{CharacterId, Map, Refusal, Role, World, trial};

/// The calls whose slowest is searched for.
#[derive(Clone, Copy, Debug, PartialEq)]
pub enum Call {
    /// An accepted step.
    Step,
    /// A step that is refused with 9.
    RefusedStep,
    SendStep,
    /// A screen takes a mark: all copies step.
    ReceiveMark,
    /// A search that finds nothing: the first, second and third steps of all lists.
    Search,
    /// A step's share of a trial.
    TrialStep,
}

/// A search makes so many first, second and third steps, 306 in all.
const SEARCHED: [f64; 3] = [18.0, 72.0, 216.0];

/// Nobody gets there.
const NOWHERE: (i32, i32) = (i32::MIN, i32::MIN);

const SEARCHER: CharacterId = CharacterId(0);

/// The last steps of a scene count, so many at most; those before them are the way there.
const LAST: usize = 10;

/// Steps of a trial while the slowest is searched for.
const TRIED: i32 = 20;

impl Call {
    pub const ALL: [Call; 6] = [
        Call::Step,
        Call::RefusedStep,
        Call::SendStep,
        Call::ReceiveMark,
        Call::Search,
        Call::TrialStep,
    ];

    /// The slowest of a scene; for a search its estimate from three steps.
    pub fn cost(self, scene: &Scene) -> f64 {
        match self {
            Call::Step => most(
                step_times(scene)
                    .into_iter()
                    .rev()
                    .take(LAST)
                    .filter_map(Result::ok),
            ),
            Call::RefusedStep => most(step_times(scene).into_iter().filter_map(Result::err)),
            Call::SendStep => most(Link::times(scene).into_iter().map(|[send, _]| send)),
            Call::ReceiveMark => most(Link::times(scene).into_iter().map(|[_, mark]| mark)),
            Call::Search => slowest_window(scene).1,
            Call::TrialStep => trial_step(scene, TRIED),
        }
    }
}

fn most(times: impl Iterator<Item = f64>) -> f64 {
    times.fold(0.0, f64::max)
}

/// Of each accepted step, and of the one that is refused and ends the scene.
fn step_times(scene: &Scene) -> Vec<Result<f64, f64>> {
    let mut times = Vec::new();
    play(scene, |world, map| {
        let (time, answer) = timed(|| world.step(Role::Referee, map).map(|_| ()));
        times.push(answer.map(|()| time).map_err(|_| time));
        answer
    });
    times
}

/// Tunes before each step, which the closure makes, up to one that is refused.
fn play(scene: &Scene, mut step: impl FnMut(&mut World, &Map<'_>) -> Result<(), Refusal>) {
    let tiles = scene.steps_ground().tiles();
    let map = scene.steps_ground().map(&tiles);
    let mut world = scene.joined();
    for turn in 0..scene.steps {
        for (index, value) in scene.tuned_before(turn) {
            // A hold outside its limits stays as it was.
            let _ = world.tune(Role::Referee, index, value);
        }
        if step(&mut world, &map).is_err() {
            return;
        }
    }
}

/// The first of three steps in a row for which a search would be slowest, and its estimate. In a
/// search nothing is tuned, so they all come before what is tuned late.
fn slowest_window(scene: &Scene) -> (usize, f64) {
    let untuned = scene.steps - usize::from(!scene.late.is_empty());
    let times = step_times(scene).into_iter().take(untuned);
    let times: Vec<f64> = times.map_while(Result::ok).collect();
    let estimate = |window: &[f64]| {
        let each = window.iter().zip(SEARCHED);
        each.map(|(time, count)| time * count).sum::<f64>()
    };
    let windows = times.windows(SEARCHED.len()).map(estimate);
    let slowest = windows
        .enumerate()
        .max_by(|one, other| one.1.total_cmp(&other.1));
    slowest.unwrap_or((0, 0.0))
}

/// A whole search in the world before those steps.
pub fn search_time(scene: &Scene) -> f64 {
    let ((first, _), (x, y)) = (slowest_window(scene), NOWHERE);
    let (mut turn, mut time) = (0, 0.0);
    play(scene, |world, map| {
        if turn == first {
            time = timed(|| world.search(Role::Referee, map, SEARCHER, x, y)).0;
            return Err(Refusal::TooFar);
        }
        turn += 1;
        world.step(Role::Referee, map).map(|_| ())
    });
    time
}

/// A step's share of a trial on the map of the joins, under one tuning; a player's target is the
/// tile that its input aims at.
pub fn trial_step(scene: &Scene, steps: i32) -> f64 {
    let tiles = scene.ground.tiles();
    let map = scene.ground.map(&tiles);
    let world = scene.joined();
    let (mut joins, mut targets) = (Vec::new(), Vec::new());
    let all = CharacterId::all().zip(scene.places.iter().zip(&scene.inputs));
    for (id, (&(x, y), input)) in all.filter(|&(id, _)| world.record(Role::Board, id).is_ok()) {
        joins.extend([id.0.cast_signed(), x, y]);
        targets.extend([input.target_x, input.target_y]);
    }
    let mut row = [0; trial::ROW_NUMBERS];
    let run = || trial::run(&map, &joins, &targets, &scene.tunings, steps, &mut row);
    timed(run).0 / f64::from(steps)
}
