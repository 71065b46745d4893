//! What a server keeps, and the buffers that it lends beside it.

use crate::course::Course;
use crate::fence::Fenced;
use crate::function::Function;
use crate::life::{Kind, Life};
use crate::maps::{self, other_length, room_for};
use compare_world::any_numbers::{any, drawn_near};
use compare_world::sequences::sides;
use harness::SEATS;
use harness::encoding::{RECORDS_NUMBERS, WORLD_NUMBERS};
use harness::search::WAY_NUMBERS;
use harness::sending::{SCREEN_NUMBERS, SENDER_NUMBERS};
use original::{CORE_NUMBERS, INPUT_NUMBERS};
use ponguriena::send_buffers::PASSED_NUMBERS;
use reference::Xorshift;
use reference::packed::MOST_PACKED;
use tile_map::Map;
use tile_map::draw::{below, pick};

/// Once in so many calls something is overwritten in a life in which that happens.
const DAMAGED_EVERY: usize = 50;

/// One in so many of these is overwritten from its first number to its last.
const WHOLE_EVERY: usize = 16;

pub struct Server {
    pub life: Life,
    pub course: Course,
    /// Made before all others, the last one first.
    pub first_calls: Vec<Function>,
    pub sides: (u32, u32),
    pub tiles: Fenced<u8>,
    pub totals: Fenced<u32>,
    pub world: Fenced<i32>,
    pub sender: Fenced<i32>,
    pub screen: Fenced<i32>,
    /// What was passed along and has not arrived.
    pub pending: Vec<i32>,
    pub records: Fenced<i32>,
    pub removed: Fenced<i32>,
    pub passed: Fenced<i32>,
    pub record: Fenced<i32>,
    pub input: Fenced<i32>,
    pub bytes: Fenced<u8>,
    pub way: Fenced<i32>,
    /// For what is told as one number.
    pub number: Fenced<i32>,
    pub area: Fenced<u32>,
    pub count: Fenced<usize>,
    pub removed_count: Fenced<usize>,
}

impl Server {
    /// Its life is over before the first call.
    pub fn new() -> Server {
        let numbers = |name, right| Fenced::new(name, room_for(right));
        Server {
            life: Life::over(),
            course: Course::default(),
            first_calls: Vec::new(),
            sides: (0, 0),
            tiles: Fenced::new("tiles", 0),
            totals: Fenced::new("totals", 0),
            world: numbers("world", WORLD_NUMBERS),
            sender: numbers("sender", SENDER_NUMBERS),
            screen: numbers("screen", SCREEN_NUMBERS),
            pending: Vec::new(),
            records: numbers("records", RECORDS_NUMBERS),
            removed: numbers("removed", SEATS),
            passed: numbers("passed", PASSED_NUMBERS),
            record: numbers("record", CORE_NUMBERS),
            input: numbers("input", INPUT_NUMBERS),
            bytes: Fenced::new("bytes", room_for(MOST_PACKED)),
            way: numbers("way", WAY_NUMBERS),
            number: Fenced::new("number", 1),
            area: Fenced::new("count of the area", 1),
            count: Fenced::new("count", 1),
            removed_count: Fenced::new("count of the removed", 1),
        }
    }

    /// Another life on another map.
    pub fn begin(&mut self, random: &mut Xorshift) {
        self.life = Life::drawn(random);
        self.course.lives += 1;
        let map = maps::drawn(random);
        self.sides = (map.width as u32, map.height as u32);
        self.tiles = Fenced::new("tiles", room_for(map.tiles.len()));
        self.totals = Fenced::new("totals", room_for(map.tiles.len()));
        self.tiles.put(&map.tiles);
        self.pending.clear();
        self.first_calls = vec![
            Function::AreaBuild,
            Function::ScreenFresh,
            Function::SenderFresh,
            Function::Fresh,
        ];
    }

    pub fn tiles_count(&self) -> usize {
        self.sides.0 as usize * self.sides.1 as usize
    }

    /// As it is.
    pub fn map(&self) -> Map {
        self.map_of(self.sides, self.tiles_count())
    }

    /// The one that is told, which may be none: the sides are others, or so many tiles are not lent.
    pub fn told_map(&self, faulty: bool, random: &mut Xorshift) -> Map {
        let length = self.tiles_count();
        match below(random, 6) {
            0 | 1 if faulty => self.map_of(sides(self.sides, random), length),
            2 if faulty => self.map_of(self.sides, other_length(length, random)),
            _ => self.map(),
        }
    }

    fn map_of(&self, (width, height): (u32, u32), length: usize) -> Map {
        Map {
            width: width as usize,
            height: height as usize,
            tiles: self.tiles.first(length).to_vec(),
        }
    }

    /// So many of the passed numbers wait to arrive. Where too many do, those before are lost.
    pub fn pass_along(&mut self, count: usize) {
        if self.pending.len() + count > PASSED_NUMBERS {
            self.pending.clear();
        }
        let passed = self.passed.first(count);
        self.pending.extend(passed);
    }

    /// Numbers that no call may have left get into what is kept, if that is due.
    pub fn suffer(&mut self, random: &mut Xorshift) {
        if self.life.kind != Kind::Damaged || below(random, DAMAGED_EVERY) != 0 {
            return;
        }
        self.course.overwritten += 1;
        match below(random, 4) {
            0 => damage::<SENDER_NUMBERS>(&mut self.sender, random),
            1 => damage::<SCREEN_NUMBERS>(&mut self.screen, random),
            2 if !self.pending.is_empty() => damage_some(&mut self.pending, random),
            _ => damage::<WORLD_NUMBERS>(&mut self.world, random),
        }
    }
}

fn damage<const N: usize>(kept: &mut Fenced<i32>, random: &mut Xorshift) {
    match below(random, WHOLE_EVERY) {
        0 => {
            let numbers = drawn_near::<N>(*kept.array(), random);
            kept.put(&numbers);
        }
        _ => damage_some(kept.first_mut(N), random),
    }
}

/// One, or a few.
fn damage_some(numbers: &mut [i32], random: &mut Xorshift) {
    for _ in 0..pick(random, &[1, 1, 3, 10]) {
        numbers[below(random, numbers.len())] = any(random);
    }
}
