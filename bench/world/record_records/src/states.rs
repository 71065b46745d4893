//! States for `to_net` and `quantize`.

use crate::case::Case;
use crate::values::floats;
use original::{CharacterId, Hook, State, hook_of, vec2};
use reference::Xorshift;

const HOOKS: u32 = 8;
const DIRECTIONS: u32 = 3;

const IDS: [u32; 5] = [0, 15, 0x7fff_ffff, 0x8000_0000, 0xffff_ffff];

/// The last two do not fit a record.
const TICKS: [u32; 6] = [0, 59, 60, 0x7fff_ffff, 0x8000_0000, 0xffff_ffff];

/// Random states of each kind for each hook.
const RANDOM: usize = 18;

pub fn state_cases(random: &mut Xorshift) -> Vec<Case> {
    let mut states = special_values();
    states.extend(grabbed());
    states.extend(flags_and_directions());
    for tag in 0..HOOKS {
        for _ in 0..RANDOM {
            states.push(any(tag, random));
            states.push(in_game(tag, random));
        }
    }
    states.into_iter().map(Case::State).collect()
}

/// For each hook, each special value in each place once.
fn special_values() -> Vec<State> {
    let floats = floats();
    let mut states = Vec::new();
    for tag in 0..HOOKS {
        for start in 0..floats.len() {
            let mut values = floats.iter().copied().cycle().skip(start).step_by(5);
            let mut next = || values.next().expect("a cycle has no end");
            states.push(state_from(tag, start as u32, &mut next));
        }
    }
    states
}

fn grabbed() -> Vec<State> {
    let mut states = Vec::new();
    for id in IDS {
        for tick in TICKS {
            let hook = Hook::Grabbed(CharacterId(id), tick);
            states.push(State { hook, ..at_rest() });
        }
    }
    states
}

fn flags_and_directions() -> Vec<State> {
    let mut states = Vec::new();
    for (jumped_already, used_airjump) in
        [(false, false), (false, true), (true, false), (true, true)]
    {
        for direction in 0..DIRECTIONS {
            states.push(State {
                jumped_already,
                used_airjump,
                direction,
                ..at_rest()
            });
        }
    }
    states
}

fn at_rest() -> State {
    State {
        pos: vec2::new(48.0, 49.0),
        vel: vec2::new(0.0, 0.5),
        hook: Hook::Idle,
        jumped_already: false,
        used_airjump: false,
        angle: 0.75,
        direction: 1,
    }
}

/// Every float any pattern.
fn any(tag: u32, random: &mut Xorshift) -> State {
    let small = random.pattern();
    state_from(tag, small, &mut || f32::from_bits(random.pattern()))
}

/// Floats of the sizes that a game has.
fn in_game(tag: u32, random: &mut Xorshift) -> State {
    let small = random.pattern();
    let mut limits = [3e4, 3e4, 60.0, 60.0, 3e4, 3e4, 1.0, 1.0, 3.2].into_iter();
    let mut next = || random.within(limits.next().expect("nine limits"));
    state_from(tag, small, &mut next)
}

/// Position, velocity, hook and angle take nine floats in this order; the rest is made of `small`.
fn state_from(tag: u32, small: u32, next: &mut impl FnMut() -> f32) -> State {
    let mut pair = || {
        let x = next();
        vec2::new(x, next())
    };
    let (pos, vel) = (pair(), pair());
    let (hook_pos, hook_dir) = (pair(), pair());
    State {
        pos,
        vel,
        hook: hook_of(tag, hook_pos, hook_dir, small % 16, small % 61),
        jumped_already: small.is_multiple_of(2),
        used_airjump: (small / 2).is_multiple_of(2),
        angle: next(),
        direction: small / 4 % DIRECTIONS,
    }
}
