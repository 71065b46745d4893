//! Calls one after another on a world that was fresh, and each as a line of text.

use crate::digest::{published_digest, world_digest};
use harness::{Call, Published, Refusal, World};
use libtw2_gamenet::snap_obj::PlayerInput;
use reference::Bits;
use tile_map::Map;

const ACCEPTED: u32 = 0;

pub struct Line {
    /// Whether the world is a new one.
    pub fresh: bool,
    /// Its tiles are lent to the call.
    pub map: Map,
    /// As told to the call.
    pub sides: (u32, u32),
    pub call: Call,
    pub answer: Result<Published, Refusal>,
    pub after: World,
}

impl Line {
    /// The answer's number.
    pub fn number(&self) -> u32 {
        self.answer.map_or_else(Refusal::number, |_| ACCEPTED)
    }

    /// The map that the call is told, which may be none.
    pub fn told_map(&self) -> Map {
        told_map(&self.map, self.sides)
    }

    /// With the digest of the world and that of what is published.
    pub fn text(&self) -> String {
        let published = match (self.call, &self.answer) {
            (Call::Step, Ok(published)) => published_digest(published),
            _ => 0,
        };
        self.text_with(&[world_digest(&self.after), published])
    }

    /// Whether fresh, the map, and as words the sides, the code with its arguments, the
    /// answer and digests.
    pub fn text_with(&self, digests: &[u32]) -> String {
        let mut words = vec![self.sides.0, self.sides.1];
        words.extend(self.call.numbers().map(i32::to_pattern));
        words.push(self.number());
        words.extend(digests);
        line_text(self.fresh, &self.map, &words)
    }
}

/// The tiles of a map with sides that may not be its own.
pub fn told_map(map: &Map, (width, height): (u32, u32)) -> Map {
    Map {
        width: width as usize,
        height: height as usize,
        tiles: map.tiles.clone(),
    }
}

/// Whether the world is a new one, the map whose tiles are lent, and words.
pub fn line_text(fresh: bool, map: &Map, words: &[u32]) -> String {
    let fresh = if fresh { 'n' } else { 'c' };
    let words: Vec<String> = words.iter().map(|word| format!("{word:08x}")).collect();
    format!("{fresh} {} {}", map.text(), words.join(" "))
}

pub struct Sequence {
    pub map: Map,
    pub world: World,
    pub lines: Vec<Line>,
}

impl Sequence {
    pub fn on(map: &Map) -> Sequence {
        Sequence {
            map: map.clone(),
            world: World::fresh(),
            lines: Vec::new(),
        }
    }

    /// With sides that may not be those of the map.
    pub fn with_sides(&mut self, sides: (u32, u32), call: Call) {
        let answer = self.world.call(&told_map(&self.map, sides), call);
        self.lines.push(Line {
            fresh: self.lines.is_empty(),
            map: self.map.clone(),
            sides,
            call,
            answer,
            after: self.world.clone(),
        });
    }

    pub fn call(&mut self, call: Call) {
        let sides = (self.map.width as u32, self.map.height as u32);
        self.with_sides(sides, call);
    }

    pub fn join(mut self, id: i32, x: i32, y: i32) -> Sequence {
        self.call(Call::Join { id, x, y });
        self
    }

    pub fn leave(mut self, id: i32) -> Sequence {
        self.call(Call::Leave { id });
        self
    }

    pub fn told(mut self, id: i32, input: PlayerInput) -> Sequence {
        self.call(Call::Input { id, input });
        self
    }

    pub fn tuned(mut self, index: usize, hundredths: i32) -> Sequence {
        let index = index as i32;
        self.call(Call::Tune { index, hundredths });
        self
    }

    pub fn steps(mut self, count: usize) -> Sequence {
        for _ in 0..count {
            self.call(Call::Step);
        }
        self
    }
}
