//! The scenes with which the search begins.

use crate::ground::{Ground, LONGEST};
use crate::scene::Scene;
use ponguriena::PlayerInput;
use ponguriena::Tuning::{
    self, AirControlAccel, AirControlSpeed, Gravity, GroundControlAccel, GroundControlSpeed,
    HookFireSpeed, HookLength, PlayerCollision, PlayerHooking, VelrampCurvature, VelrampRange,
    VelrampStart,
};
use ponguriena::buffers::SEATS;

/// In units a step.
const SPEED: i32 = 5_900;

/// A greater speed is cut to this one, before the ramp makes it longer sideways.
const GREATEST_SPEED: f64 = 6_000.0;

/// The x of the column in which everybody joins, far from the greatest, 100,000.
const LEFT: i32 = -90_000;

/// The ramp's range in hundredths for runs of 62,600 to 65,000 units.
const RUN_RANGE: i32 = 8_660_000;

/// So many runs lead from the greatest x of a join to 2^24, where a turn's rounded sum stays.
const FAR_STEPS: usize = 280;

/// All but the one that is far away.
pub fn scenes() -> Vec<Scene> {
    let mut scenes = vec![
        column("run and hook in a column", 1, LEFT),
        column("run and hook in a column, 1,024 by 1,024 tiles", LONGEST, 0),
        last_too_far(),
        falling("run and fall in a column, two steps", 100_000, RUN_RANGE, 2),
        falling(
            "run and fall in a column, ten steps",
            260_000,
            9_100_000,
            10,
        ),
        to_and_fro(),
        stairs(),
        hooks(),
        hooks_over_tiles("hooks of 65,530 over 170 by 170 tiles", 170, -20_000),
        hooks_over_tiles("hooks of 65,530 over 1,024 by 1,024 tiles", LONGEST, -5_000),
        in_walls(),
        crowd(),
    ];
    scenes.extend([590_000, 200_000, 50_000, 5_000].map(two_rows));
    scenes
}

/// Everybody at the greatest x that runs lead to. The way there is long.
pub fn far_scene() -> Scene {
    let tunings = [&runs(RUN_RANGE)[..], &[(Gravity, 0)]].concat();
    let place = |id| (100_000, 37 * id);
    let name = "run at 2^24, where no turn moves";
    let mut scene = Scene::new(name, &tunings, place, to_the_right(0));
    scene.steps = FAR_STEPS;
    scene
}

/// Runs of the greatest speed, under a ramp that makes them longer.
fn runs(range: i32) -> [(Tuning, i32); 7] {
    let speed = SPEED * 100;
    [
        (VelrampStart, 0),
        (VelrampRange, range),
        (VelrampCurvature, 50),
        (GroundControlSpeed, speed),
        (GroundControlAccel, speed),
        (AirControlSpeed, speed),
        (AirControlAccel, speed),
    ]
}

fn to_the_right(target_y: i32) -> PlayerInput {
    PlayerInput {
        direction: 1,
        target_x: 1_000,
        target_y,
        ..PlayerInput::default()
    }
}

fn aimed(target_x: i32, target_y: i32) -> PlayerInput {
    PlayerInput {
        target_x,
        target_y,
        hook: 1,
        ..PlayerInput::default()
    }
}

/// 37 apart, so that each passes all others without a touch; hooks of the greatest length.
fn column(name: &str, side: u32, left: i32) -> Scene {
    let hook = [
        (HookLength, i32::MAX),
        (HookFireSpeed, 6_553_000),
        (PlayerHooking, 100),
        (Gravity, 260_000),
    ];
    let input = PlayerInput {
        direction: 1,
        ..aimed(10_000, -1)
    };
    let tunings = [&runs(8_394_000)[..], &hook].concat();
    Scene::new(name, &tunings, |id| (left, 37 * id), input).on(Ground::open(side, side))
}

/// The last one jumps, which makes it faster than all before it: its walk alone is refused with 9.
fn last_too_far() -> Scene {
    let mut scene = column("run and hook in a column, the last too far", 1, LEFT);
    scene.tunings[VelrampRange as usize] = 8_630_000;
    scene.tunings[Gravity as usize] = 100_000;
    scene.tunings[Tuning::AirJumpImpulse as usize] = 109_000;
    scene.inputs[SEATS - 1].jump = 1;
    scene
}

fn falling(name: &str, gravity: i32, range: i32, steps: usize) -> Scene {
    let rest = [(Gravity, gravity), (HookLength, 1), (PlayerHooking, 0)];
    let tunings = [&runs(range)[..], &rest].concat();
    let mut scene = Scene::new(name, &tunings, |id| (LEFT, 40 * id), to_the_right(100));
    scene.steps = steps;
    scene
}

/// In a trial everybody turns round in every step, and falls at a speed that is soon constant: so
/// each step is about as long as the first.
fn to_and_fro() -> Scene {
    let rest = [
        (GroundControlAccel, 2 * SPEED * 100),
        (AirControlAccel, 2 * SPEED * 100),
        (Gravity, 60_000),
    ];
    let tunings = [&runs(8_640_000)[..], &rest].concat();
    let input = PlayerInput {
        target_x: 512,
        ..to_the_right(0)
    };
    let place = |id| (16_000, 37 * id - 2_000);
    let mut scene = Scene::new("run to a tile and back", &tunings, place, input);
    scene.steps = 4;
    scene.on(Ground::open(LONGEST, LONGEST))
}

/// In a row down a way between solid tiles that is as steep as the fall.
fn stairs() -> Scene {
    let rest = [(Gravity, SPEED * 100), (PlayerHooking, 0)];
    let tunings = [&runs(RUN_RANGE)[..], &rest].concat();
    let place = |id| {
        let along = 40 * (63 - id);
        (100 + along, 16 + (100 + along) * 23 / 256)
    };
    let name = "run down between solid tiles";
    Scene::new(name, &tunings, place, to_the_right(0)).on(Ground {
        columns: 1,
        rise: 23,
        clear: 3,
        ..Ground::open(LONGEST, LONGEST)
    })
}

const HOOKS: [(Tuning, i32); 5] = [
    (HookLength, i32::MAX),
    (HookFireSpeed, 6_553_000),
    (Gravity, 0),
    (PlayerCollision, 0),
    (PlayerHooking, 0),
];

fn hooks() -> Scene {
    Scene::new(
        "hooks of 65,530",
        &HOOKS,
        |id| (LEFT, 40 * id),
        aimed(1_000, 30),
    )
}

/// Along the diagonal, with every second tile beside it solid.
fn hooks_over_tiles(name: &str, side: u32, left: i32) -> Scene {
    let place = |id| (left - 30 * id, left - 30 * id);
    Scene::new(name, &HOOKS, place, aimed(1_000, 1_000)).on(Ground {
        columns: 2,
        rows: 2,
        rise: 256,
        clear: 3,
        open_rim: true,
        ..Ground::open(side, side)
    })
}

/// Joined on an open map, and stepped on a solid one.
fn in_walls() -> Scene {
    let rest = [(Gravity, 0), (PlayerHooking, 0)];
    let tunings = [&runs(RUN_RANGE)[..], &rest].concat();
    let place = |id| (LEFT, 40 * id);
    let mut scene = Scene::new("runs in walls", &tunings, place, to_the_right(0));
    scene.stepped_on = Some(Ground::solid(1, 1));
    scene
}

fn crowd() -> Scene {
    let input = PlayerInput {
        direction: 1,
        ..aimed(100, 0)
    };
    let mut scene = Scene::new(
        "all in one place",
        &[],
        |id| (100 + id % 8, 100 + id / 8),
        input,
    );
    scene.steps = 4;
    scene
}

/// Two rows along the way, 30 apart across it: nobody is touched, and each of the first row passes
/// all of the second.
fn two_rows(gravity: i32) -> Scene {
    let fall = f64::from(gravity) / 100.0;
    let speed = f64::hypot(SPEED.into(), fall).min(GREATEST_SPEED);
    let ramp = f64::exp2(50.0 * speed / f64::from(RUN_RANGE / 100));
    let (sine, cosine) = f64::atan2(fall, f64::from(SPEED) * ramp).sin_cos();
    let place = |id| {
        // Whoever moves first is first in its row.
        let row = f64::from(id / 32);
        let (along, across) = (f64::from(31 - id % 32) * 40.0 + row * 1_280.0, row * 30.0);
        let x = f64::from(LEFT) + along * cosine - across * sine;
        (
            x.round() as i32,
            (along * sine + across * cosine).round() as i32,
        )
    };
    let rest = [(Gravity, gravity), (HookLength, 1), (PlayerHooking, 0)];
    let tunings = [&runs(RUN_RANGE)[..], &rest].concat();
    let name = format!("two rows, falling by {fall}");
    Scene::new(&name, &tunings, place, to_the_right(0))
}
