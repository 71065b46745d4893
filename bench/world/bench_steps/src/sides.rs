//! The port and libtw2, each with a world of its own on the map of a scene.

use crate::scene::Scene;
use harness::encoding::{
    RECORDS_NUMBERS, WORLD_NUMBERS, encoded, encoded_records, encoded_removed,
};
use harness::roles::REFEREE;
use harness::{Call, SEATS};
use ponguriena::buffers;
use port_calls::{call_on, lent};

/// The whole world, and what the last step published.
pub type Numbers = (
    [i32; WORLD_NUMBERS],
    [i32; RECORDS_NUMBERS],
    ([i32; SEATS], usize),
);

pub trait Side<'a>: Sized {
    fn on(map: &'a tile_map::Map) -> Self;

    /// After the joins.
    fn begun(scene: &'a Scene) -> Self {
        let mut side = Self::on(&scene.map);
        scene.start.iter().for_each(|&call| side.call(call));
        side
    }

    fn call(&mut self, call: Call);
    fn numbers(&self) -> Numbers;
}

pub struct Port<'a> {
    pub map: ponguriena::Map<'a>,
    pub world: [i32; WORLD_NUMBERS],
    pub records: [i32; RECORDS_NUMBERS],
    pub removed: [i32; SEATS],
    /// How many of them count.
    pub count: usize,
}

pub struct Original<'a> {
    map: &'a tile_map::Map,
    world: harness::World,
    published: harness::Published,
}

impl<'a> Side<'a> for Port<'a> {
    fn on(map: &'a tile_map::Map) -> Port<'a> {
        let mut world = [0; WORLD_NUMBERS];
        buffers::fresh(&mut world).expect("the right length");
        Port {
            map: lent(map),
            world,
            records: [0; RECORDS_NUMBERS],
            removed: [0; SEATS],
            count: 0,
        }
    }

    fn call(&mut self, call: Call) {
        let (records, removed) = (&mut self.records, &mut self.removed);
        let answer = call_on(REFEREE, &mut self.world, &self.map, call, records, removed);
        self.count = answer.expect("the scene was accepted when it was drawn");
    }

    fn numbers(&self) -> Numbers {
        (self.world, self.records, (self.removed, self.count))
    }
}

impl<'a> Side<'a> for Original<'a> {
    fn on(map: &'a tile_map::Map) -> Original<'a> {
        Original {
            map,
            world: harness::World::fresh(),
            published: harness::NOTHING,
        }
    }

    fn call(&mut self, call: Call) {
        let (world, map) = (&mut self.world, self.map);
        let answer = match call {
            Call::Join { id, x, y } => world.join(map, id, x, y),
            Call::Leave { id } => world.leave(id),
            Call::Input { id, input } => world.input(id, input),
            Call::Tune { index, hundredths } => world.tune(index, hundredths),
            Call::Step => world.step(map).map(|published| self.published = published),
        };
        answer.expect("the scene was accepted when it was drawn");
    }

    fn numbers(&self) -> Numbers {
        let published = &self.published;
        let removed = encoded_removed(published);
        (encoded(&self.world), encoded_records(published), removed)
    }
}
