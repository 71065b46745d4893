//! A call on a map, the answer of the original, and both as a line of text.

use original::{Collision, CollisionType, vec2};
use reference::Bits;
use tile_map::Map;
use tile_map::turns::{MOST_TURNS, box_turns, line_turns};

const NOTHING: u32 = 0;
const NORMAL: u32 = 1;
const UNHOOKABLE: u32 = 3;
const REFUSED: [u32; 5] = [9, 0, 0, 0, 0];

#[derive(Clone, Copy)]
pub enum Call {
    Line { from: vec2, to: vec2 },
    Box { pos: vec2, vel: vec2, size: vec2 },
}

pub struct Case {
    pub map: Map,
    pub call: Call,
}

impl Case {
    pub fn line(map: &Map, from: vec2, to: vec2) -> Case {
        let map = map.clone();
        let call = Call::Line { from, to };
        Case { map, call }
    }

    pub fn moved(map: &Map, pos: vec2, vel: vec2, size: vec2) -> Case {
        let map = map.clone();
        let call = Call::Box { pos, vel, size };
        Case { map, call }
    }

    pub fn answer(&self) -> [u32; 5] {
        if self.turns() > MOST_TURNS {
            return REFUSED;
        }
        let mut map = &self.map;
        match self.call {
            Call::Line { from, to } => match map.check_line(from, to) {
                None => [NOTHING; 5],
                Some((point, kind)) => words(number(kind), point, vec2::default()),
            },
            Call::Box { pos, vel, size } => {
                let (pos, vel) = map.move_box(pos, vel, size);
                words(NOTHING, pos, vel)
            }
        }
    }

    fn turns(&self) -> i64 {
        match self.call {
            Call::Line { from, to } => line_turns(from, to),
            Call::Box { vel, .. } => box_turns(vel),
        }
    }

    /// Op, width, height, tiles, six arguments, five words of the answer.
    pub fn text(&self) -> String {
        let (op, first, second, third) = match self.call {
            Call::Line { from, to } => ('l', from, to, vec2::default()),
            Call::Box { pos, vel, size } => ('m', pos, vel, size),
        };
        let arguments = [first, second, third].into_iter().flat_map(bits);
        let values: Vec<String> = arguments
            .chain(self.answer())
            .map(|word| format!("{word:08x}"))
            .collect();
        format!("{op} {} {}", self.map.text(), values.join(" "))
    }
}

fn number(kind: CollisionType) -> u32 {
    match kind {
        CollisionType::Normal => NORMAL,
        CollisionType::Unhookable => UNHOOKABLE,
    }
}

fn words(number: u32, first: vec2, second: vec2) -> [u32; 5] {
    let [a, b] = bits(first);
    let [c, d] = bits(second);
    [number, a, b, c, d]
}

fn bits(pair: vec2) -> [u32; 2] {
    [pair.x.to_pattern(), pair.y.to_pattern()]
}
