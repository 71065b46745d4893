//! Small changes of a scene.

use crate::ground::{Ground, LONGEST};
use crate::scene::Scene;
use ponguriena::PlayerInput;
use ponguriena::buffers::{SEATS, TUNINGS};
use reference::Xorshift;

/// Changes at once, at most.
const CHANGES: u32 = 3;

/// Numbers that a setting may become at once.
const LANDMARKS: [i32; 12] = [
    0,
    1,
    -1,
    50,
    100,
    1_000,
    10_000,
    100_000,
    590_000,
    8_394_000,
    i32::MAX,
    i32::MIN,
];

const MOST_STEPS: u32 = 6;

/// A few changes, each of one part or by a part of another scene.
pub fn changed(scene: &Scene, others: &[Scene], random: &mut Xorshift) -> Scene {
    let mut scene = scene.clone();
    for _ in 0..=below(CHANGES, random) {
        match below(11, random) {
            0..=2 => change_tuning(&mut scene.tunings, random),
            3 => change_late(&mut scene, random),
            4 | 5 => change_places(&mut scene.places, random),
            6 | 7 => change_inputs(&mut scene.inputs, random),
            8 => change_grounds(&mut scene, random),
            9 => scene.steps = 1 + below(MOST_STEPS, random) as usize,
            _ => take_part(&mut scene, others, random),
        }
    }
    scene
}

/// What makes another scene slow may make this one slower.
fn take_part(scene: &mut Scene, others: &[Scene], random: &mut Xorshift) {
    let other = &others[below(others.len() as u32, random) as usize];
    match below(4, random) {
        0 => scene.tunings = other.tunings,
        1 => scene.places = other.places,
        2 => scene.inputs = other.inputs,
        _ => {
            scene.ground = other.ground.clone();
            scene.stepped_on = other.stepped_on.clone();
        }
    }
}

fn below(limit: u32, random: &mut Xorshift) -> u32 {
    random.pattern() % limit
}

/// A number near another, or any.
fn near(number: i32, random: &mut Xorshift) -> i32 {
    let scaled = |by: f32| (f64::from(number) * f64::from(by.exp2())) as i32;
    match below(6, random) {
        0 => LANDMARKS[below(LANDMARKS.len() as u32, random) as usize],
        1 => scaled(random.within(3.0)),
        2 => scaled(random.within(0.1)),
        3 => scaled(random.within(0.002)),
        4 => number.wrapping_neg(),
        _ => number.wrapping_add(random.within(40.0) as i32),
    }
}

fn change_tuning(tunings: &mut [i32; TUNINGS], random: &mut Xorshift) {
    let index = below(TUNINGS as u32, random) as usize;
    tunings[index] = near(tunings[index], random);
}

fn change_late(scene: &mut Scene, random: &mut Xorshift) {
    if below(3, random) == 0 {
        scene.late.clear();
        return;
    }
    let index = below(TUNINGS as u32, random);
    scene
        .late
        .push((index as i32, near(scene.tunings[index as usize], random)));
}

fn change_places(places: &mut [(i32, i32); SEATS], random: &mut Xorshift) {
    let shift = (random.within(200.0) as i32, random.within(200.0) as i32);
    let apart = (random.within(60.0), random.within(60.0));
    let first = places[0];
    match below(5, random) {
        0 => row(places, first, apart),
        1 => row(places, first, (0.0, apart.1)),
        2 => places
            .iter_mut()
            .for_each(|place| *place = sum(*place, shift)),
        3 => places
            .iter_mut()
            .step_by(2)
            .for_each(|place| *place = sum(*place, shift)),
        _ => {
            let place = &mut places[below(SEATS as u32, random) as usize];
            *place = (near(place.0, random), near(place.1, random));
        }
    }
}

fn sum(one: (i32, i32), other: (i32, i32)) -> (i32, i32) {
    (one.0.wrapping_add(other.0), one.1.wrapping_add(other.1))
}

/// On a line from the first place on.
fn row(places: &mut [(i32, i32); SEATS], first: (i32, i32), apart: (f32, f32)) {
    for (number, place) in places.iter_mut().enumerate() {
        let along = |step: f32| (step * number as f32) as i32;
        *place = sum(first, (along(apart.0), along(apart.1)));
    }
}

/// One number of everybody's input, or of somebody's.
fn change_inputs(inputs: &mut [PlayerInput; SEATS], random: &mut Xorshift) {
    let id = below(SEATS as u32, random) as usize;
    let mut numbers = inputs[id].numbers();
    let field = below(numbers.len() as u32, random) as usize;
    numbers[field] = match field {
        1 | 2 => near(numbers[field], random),
        _ => random.within(1.99) as i32,
    };
    let value = numbers[field];
    let one = below(3, random) == 0;
    for (_, input) in inputs
        .iter_mut()
        .enumerate()
        .filter(|&(seat, _)| !one || seat == id)
    {
        let mut numbers = input.numbers();
        numbers[field] = value;
        *input = PlayerInput::from_numbers(numbers);
    }
}

fn change_grounds(scene: &mut Scene, random: &mut Xorshift) {
    match below(6, random) {
        0 => scene.stepped_on = None,
        1 => scene.stepped_on = Some(changed_ground(scene.steps_ground(), random)),
        _ => scene.ground = changed_ground(&scene.ground, random),
    }
}

fn changed_ground(ground: &Ground, random: &mut Xorshift) -> Ground {
    let mut ground = ground.clone();
    match below(8, random) {
        0 => return Ground::open(LONGEST, LONGEST),
        1 => return Ground::solid(1, 1),
        2 => ground.width = 1 + below(LONGEST, random),
        3 => ground.height = 1 + below(LONGEST, random),
        4 => (ground.columns, ground.rows) = (below(4, random), 1 + below(4, random)),
        5 => ground.rise = near(ground.rise, random).clamp(-512, 512),
        6 => ground.clear = below(8, random) as i32,
        _ => ground.open_rim = !ground.open_rim,
    }
    ground
}
