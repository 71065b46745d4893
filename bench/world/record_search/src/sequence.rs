//! Calls and searches one after another on a world that was fresh, and each as a line of text.

use harness::encoding::{WORLD_NUMBERS, encoded};
use harness::roles::REFEREE;
use harness::search::{Buttons, WAY_NUMBERS, lent_search};
use harness::{CALL_NUMBERS, Call, Refusal, World};
use record_calls::digest::{digest, published_digest, world_digest};
use record_calls::{Line, Sequence, line_text, told_map};
use reference::Bits;
use tile_map::Map;

/// What the way holds before it is written.
pub const UNWRITTEN: i32 = 77;

/// A kind that no call has.
const SEARCH: i32 = 10;

#[derive(Clone, Copy)]
pub struct Search {
    pub role: i32,
    pub id: i32,
    pub place: (i32, i32),
    /// Of the world's numbers and of the way's, as they are lent.
    pub lengths: (usize, usize),
}

#[derive(Clone, Copy)]
pub enum Asked {
    /// By the referee.
    Call(Call),
    Search(Search),
}

pub struct SearchLine {
    /// Whether the world is a new one.
    pub fresh: bool,
    /// Its tiles are lent.
    pub map: Map,
    /// As told.
    pub sides: (u32, u32),
    pub asked: Asked,
    pub number: u32,
    /// The digest of what a step publishes, or of the way as it is left.
    pub told: u32,
    pub after: World,
}

pub struct SearchSequence {
    pub map: Map,
    pub world: World,
    pub lines: Vec<SearchLine>,
}

impl Search {
    /// Of the referee, with buffers of the right lengths.
    pub fn of(id: i32, place: (i32, i32)) -> Search {
        Search {
            role: REFEREE,
            id,
            place,
            lengths: (WORLD_NUMBERS, WAY_NUMBERS),
        }
    }

    /// The world's numbers in the length in which they are lent, with zeros behind.
    pub fn lent(&self, numbers: &[i32; WORLD_NUMBERS]) -> Vec<i32> {
        let mut numbers = numbers.to_vec();
        numbers.resize(self.lengths.0, 0);
        numbers
    }

    pub fn answer(&self, world: &[i32], map: &Map) -> Result<[i32; WAY_NUMBERS], Refusal> {
        lent_search(self.role, world, map, self.id, self.place, self.lengths.1)
    }

    /// The number, and the way as it is left.
    pub fn left(&self, world: &[i32], map: &Map) -> (u32, Vec<i32>) {
        match self.answer(world, map) {
            Ok(way) => (0, way.to_vec()),
            Err(refusal) => (refusal.number(), vec![UNWRITTEN; self.lengths.1]),
        }
    }
}

impl Asked {
    /// The role, the kind and its arguments; the lengths follow the place.
    fn words(self) -> Vec<u32> {
        let (role, numbers): (i32, [i32; CALL_NUMBERS]) = match self {
            Asked::Call(call) => (REFEREE, call.numbers()),
            Asked::Search(Search {
                role,
                id,
                place: (x, y),
                lengths,
            }) => {
                let (world, way) = (lengths.0 as i32, lengths.1 as i32);
                (role, [SEARCH, id, x, y, world, way, 0])
            }
        };
        let numbers = [role].into_iter().chain(numbers);
        numbers.map(i32::to_pattern).collect()
    }
}

impl SearchLine {
    fn of_call(line: &Line) -> SearchLine {
        let told = match (line.call, &line.answer) {
            (Call::Step, Ok(published)) => published_digest(published),
            _ => 0,
        };
        SearchLine {
            fresh: line.fresh,
            map: line.map.clone(),
            sides: line.sides,
            asked: Asked::Call(line.call),
            number: line.number(),
            told,
            after: line.after.clone(),
        }
    }

    /// The map that is told, which may be none.
    pub fn told_map(&self) -> Map {
        told_map(&self.map, self.sides)
    }

    /// As that of what a role asks.
    pub fn text(&self) -> String {
        let mut words = vec![self.sides.0, self.sides.1];
        words.extend(self.asked.words());
        words.extend([self.number, world_digest(&self.after), self.told]);
        line_text(self.fresh, &self.map, &words)
    }
}

impl SearchSequence {
    pub fn after(sequence: Sequence) -> SearchSequence {
        SearchSequence {
            lines: sequence.lines.iter().map(SearchLine::of_call).collect(),
            map: sequence.map,
            world: sequence.world,
        }
    }

    /// With sides that may not be those of the map.
    pub fn with_sides(mut self, sides: (u32, u32), search: Search) -> SearchSequence {
        let map = told_map(&self.map, sides);
        let (number, way) = search.left(&search.lent(&encoded(&self.world)), &map);
        self.lines.push(SearchLine {
            fresh: self.lines.is_empty(),
            map: self.map.clone(),
            sides,
            asked: Asked::Search(search),
            number,
            told: digest(&way),
            after: self.world.clone(),
        });
        self
    }

    pub fn ask(self, search: Search) -> SearchSequence {
        let sides = (self.map.width as u32, self.map.height as u32);
        self.with_sides(sides, search)
    }

    pub fn search(self, id: i32, place: (i32, i32)) -> SearchSequence {
        self.ask(Search::of(id, place))
    }

    /// To each of these places, one after another.
    pub fn all(self, id: i32, places: impl IntoIterator<Item = (i32, i32)>) -> SearchSequence {
        let search = |sequence: SearchSequence, place| sequence.search(id, place);
        places.into_iter().fold(self, search)
    }

    /// To where these lists lead, where they lead somewhere.
    pub fn to_ends(self, id: i32, lists: &[Vec<Buttons>]) -> SearchSequence {
        let end = |list: &Vec<Buttons>| self.world.place_after(&self.map, id, list);
        let places: Vec<(i32, i32)> = lists.iter().filter_map(end).collect();
        self.all(id, places)
    }
}
