//! What roles ask one after another of a world that was fresh, and each as a line of text.

use harness::roles::{Ask, REFEREE, Told};
use harness::{Call, Refusal, World};
use record_calls::digest::{digest, published_digest, world_digest};
use record_calls::{Sequence, line_text, told_map};
use reference::Bits;
use tile_map::Map;

pub struct RoleLine {
    /// Whether the world is a new one.
    pub fresh: bool,
    /// Its tiles are lent to a call.
    pub map: Map,
    /// As told to it.
    pub sides: (u32, u32),
    /// As a number, which may be none of a role.
    pub role: i32,
    pub ask: Ask,
    pub answer: Result<Told, Refusal>,
    pub after: World,
}

impl RoleLine {
    /// The answer's number.
    pub fn number(&self) -> u32 {
        self.answer.as_ref().err().map_or(0, |no| no.number())
    }

    /// Of what is published or read; 0 where nothing is.
    fn told_digest(&self) -> u32 {
        match &self.answer {
            Ok(Told::Published(published)) => published_digest(published),
            Ok(Told::Read(numbers)) => digest(numbers),
            Err(_) => 0,
        }
    }

    /// As that of a call, with the role before the kind and its arguments.
    pub fn text(&self) -> String {
        let mut words = vec![self.sides.0, self.sides.1, self.role.to_pattern()];
        words.extend(self.ask.numbers().map(i32::to_pattern));
        words.extend([self.number(), world_digest(&self.after), self.told_digest()]);
        line_text(self.fresh, &self.map, &words)
    }
}

pub struct RoleSequence {
    pub map: Map,
    pub world: World,
    pub lines: Vec<RoleLine>,
}

impl RoleSequence {
    pub fn on(map: &Map) -> RoleSequence {
        RoleSequence {
            map: map.clone(),
            world: World::fresh(),
            lines: Vec::new(),
        }
    }

    /// Calls that the referee makes.
    pub fn refereed(sequence: &Sequence) -> RoleSequence {
        let calls = sequence.lines.iter().map(|line| Ask::Call(line.call));
        RoleSequence::on(&sequence.map).all(REFEREE, calls)
    }

    /// With sides that may not be those of the map.
    pub fn with_sides(&mut self, sides: (u32, u32), role: i32, ask: Ask) {
        let answer = self.world.ask(&told_map(&self.map, sides), role, ask);
        self.lines.push(RoleLine {
            fresh: self.lines.is_empty(),
            map: self.map.clone(),
            sides,
            role,
            ask,
            answer,
            after: self.world.clone(),
        });
    }

    pub fn ask(mut self, role: i32, ask: Ask) -> RoleSequence {
        let sides = (self.map.width as u32, self.map.height as u32);
        self.with_sides(sides, role, ask);
        self
    }

    /// One after another.
    pub fn all(self, role: i32, asks: impl IntoIterator<Item = Ask>) -> RoleSequence {
        let ask = |sequence: RoleSequence, ask| sequence.ask(role, ask);
        asks.into_iter().fold(self, ask)
    }

    /// Of the referee.
    pub fn steps(self, count: usize) -> RoleSequence {
        self.all(REFEREE, vec![Ask::Call(Call::Step); count])
    }
}
