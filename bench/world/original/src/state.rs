//! All that a character holds. Its own fields are private to `world`.

use crate::{Angle, Character, CharacterId, Hook, MoveDirection, vec2};
use reference::Bits;

pub const STATE_WORDS: usize = 12;

#[derive(Clone, Copy)]
pub struct State {
    pub pos: vec2,
    pub vel: vec2,
    pub hook: Hook,
    pub jumped_already: bool,
    pub used_airjump: bool,
    /// In radians.
    pub angle: f32,
    /// 0 left, 1 none, 2 right.
    pub direction: u32,
}

impl State {
    /// Whether `to_net` makes a record of it. It panics where the hook has held somebody for
    /// more ticks than a record has room for.
    pub fn has_record(self) -> bool {
        !matches!(self.hook, Hook::Grabbed(_, tick) if i32::try_from(tick).is_err())
    }

    /// As words of 32 bits.
    pub fn words(self) -> [u32; STATE_WORDS] {
        let [x, y] = bits(self.pos);
        let [vel_x, vel_y] = bits(self.vel);
        let (case, [a, b, c, d]) = hook_words(self.hook);
        let jumped = u32::from(self.jumped_already) + 2 * u32::from(self.used_airjump);
        let angle = self.angle.to_pattern();
        [
            x,
            y,
            vel_x,
            vel_y,
            case,
            a,
            b,
            c,
            d,
            jumped,
            angle,
            self.direction,
        ]
    }
}

/// The number of the hook's case, and what the case holds.
fn hook_words(hook: Hook) -> (u32, [u32; 4]) {
    let with_pos = |pos: vec2| {
        let [x, y] = bits(pos);
        [x, y, 0, 0]
    };
    match hook {
        Hook::Retracted => (0, [0; 4]),
        Hook::Idle => (1, [0; 4]),
        Hook::Flying(pos, dir) => {
            let ([x, y], [dx, dy]) = (bits(pos), bits(dir));
            (2, [x, y, dx, dy])
        }
        Hook::Grabbed(id, tick) => (3, [id.0, tick, 0, 0]),
        Hook::Attached(pos) => (4, with_pos(pos)),
        Hook::Retracting0(pos) => (5, with_pos(pos)),
        Hook::Retracting1(pos) => (6, with_pos(pos)),
        Hook::Retracting2(pos) => (7, with_pos(pos)),
    }
}

/// The hook whose case has that number, with as much of the rest as it holds.
pub fn hook_of(case: u32, pos: vec2, dir: vec2, id: u32, tick: u32) -> Hook {
    match case {
        0 => Hook::Retracted,
        1 => Hook::Idle,
        2 => Hook::Flying(pos, dir),
        3 => Hook::Grabbed(CharacterId(id), tick),
        4 => Hook::Attached(pos),
        5 => Hook::Retracting0(pos),
        6 => Hook::Retracting1(pos),
        7 => Hook::Retracting2(pos),
        other => panic!("no hook has the number {other}"),
    }
}

fn bits(pair: vec2) -> [u32; 2] {
    [pair.x.to_pattern(), pair.y.to_pattern()]
}

impl From<State> for Character {
    fn from(state: State) -> Character {
        Character {
            pos: state.pos,
            vel: state.vel,
            hook: state.hook,
            jumped_already: state.jumped_already,
            used_airjump: state.used_airjump,
            angle: Angle::from_radians(state.angle),
            move_direction: match state.direction {
                0 => MoveDirection::Left,
                1 => MoveDirection::None,
                2 => MoveDirection::Right,
                other => panic!("no direction has the number {other}"),
            },
        }
    }
}

impl From<Character> for State {
    fn from(character: Character) -> State {
        State {
            pos: character.pos,
            vel: character.vel,
            hook: character.hook,
            jumped_already: character.jumped_already,
            used_airjump: character.used_airjump,
            angle: character.angle.to_radians(),
            direction: match character.move_direction {
                MoveDirection::Left => 0,
                MoveDirection::None => 1,
                MoveDirection::Right => 2,
            },
        }
    }
}
