//! Time of whole searches that find nothing, by the port through its C interface and by the harness
//! over libtw2, each in one run with the last steps of all lists alone.

use crate::scene::{ROUNDS, STEPS, Scene};
use crate::sides::{Original, Side};
use crate::wholes::{print_heading, print_row, seconds};
use harness::encoding::{RECORDS_NUMBERS, WORLD_NUMBERS, decoded, encoded};
use harness::roles::REFEREE;
use harness::search::{Buttons, WAY_NUMBERS, lent_search, lists};
use harness::{Call, SEATS, World};
use ponguriena::buffers;
use port_calls::lent;
use tile_map::Map;
use timing::least_times;

/// Somebody is looked for who gets nowhere near this place.
const ID: i32 = 0;
const NOWHERE: (i32, i32) = (i32::MIN, i32::MIN);

struct Timed<'a> {
    map: &'a Map,
    numbers: [i32; WORLD_NUMBERS],
    /// Before the last step of each list, when its input is told.
    worlds: Vec<World>,
}

pub fn print_searches(scenes: &[Scene]) {
    print_heading("search", "whole, ms");
    scenes.iter().for_each(print_search);
}

fn print_search(scene: &Scene) {
    let timed = Timed::after(scene);
    assert_eq!(timed.by_port(), timed.by_original(), "{}", scene.name);
    let times = least_times(
        ROUNDS,
        [
            &mut || [seconds(|| timed.by_port())],
            &mut || [seconds(|| timed.by_original())],
            &mut || [timed.steps_of_port()],
            &mut || [timed.steps_of_original()],
        ],
    );
    let [port, original, steps @ ..] = times.map(|[time]| time * 1e3);
    let each = steps.map(|time| time * 1e3 / timed.worlds.len() as f64);
    print_row(&scene.name, [port, original], each);
}

impl Timed<'_> {
    /// The scene as it is in the end.
    fn after(scene: &Scene) -> Timed<'_> {
        let mut side = Original::begun(scene);
        for calls in &scene.blocks {
            calls.iter().for_each(|&call| side.call(call));
            (0..STEPS).for_each(|_| side.call(Call::Step));
        }
        let (numbers, ..) = side.numbers();
        let (map, world) = (&scene.map, decoded(&numbers));
        let told = |list: &Vec<Buttons>| told(world.clone(), map, list);
        Timed {
            map,
            numbers,
            worlds: lists().iter().map(told).collect(),
        }
    }

    fn by_port(&self) -> [i32; WAY_NUMBERS] {
        let (map, (x, y)) = (&lent(self.map), NOWHERE);
        let mut way = [1; WAY_NUMBERS];
        buffers::search(REFEREE, &self.numbers, map, ID, x, y, &mut way).expect("a search");
        way
    }

    fn by_original(&self) -> [i32; WAY_NUMBERS] {
        let (numbers, map) = (&self.numbers, self.map);
        lent_search(REFEREE, numbers, map, ID, NOWHERE, WAY_NUMBERS).expect("a search")
    }

    fn steps_of_port(&self) -> f64 {
        let (mut records, mut removed) = ([0; RECORDS_NUMBERS], [0; SEATS]);
        let map = &lent(self.map);
        let step = |world: &World| {
            let mut numbers = encoded(world);
            seconds(|| buffers::step(REFEREE, &mut numbers, map, &mut records, &mut removed))
        };
        self.worlds.iter().map(step).sum()
    }

    fn steps_of_original(&self) -> f64 {
        let step = |world: &World| {
            let mut world = world.clone();
            seconds(|| world.step(self.map))
        };
        self.worlds.iter().map(step).sum()
    }
}

/// A step before each input but the first.
fn told(mut world: World, map: &Map, list: &[Buttons]) -> World {
    for (turn, buttons) in list.iter().enumerate() {
        if turn > 0 {
            world.step(map).expect("short walks");
        }
        let stored = world.stored_input(ID).expect("present");
        world.input(ID, buttons.input(stored)).expect("present");
    }
    world
}
