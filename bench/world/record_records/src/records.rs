//! Records for `from_net`.

use crate::case::{Case, from_net};
use crate::values::INTEGERS;
use libtw2_gamenet::snap_obj::{CharacterCore, Tick};
use reference::Xorshift;

/// Those of the protocol, −1 to 5, and others.
const HOOK_STATES: [i32; 12] = [-2, -1, 0, 1, 2, 3, 4, 5, 6, 7, i32::MIN, i32::MAX];

const ATTACHED_OR_GRABBED: i32 = 5;

const HOOKED_PLAYERS: [i32; 7] = [-2, -1, 0, 1, 15, i32::MIN, i32::MAX];

const TICKS: [i32; 7] = [0, 59, 60, -1, -60, i32::MIN, i32::MAX];

const JUMPED: [i32; 8] = [-1, 0, 1, 2, 3, 4, i32::MIN, i32::MAX];

const DIRECTIONS: [i32; 7] = [-2, -1, 0, 1, 2, i32::MIN, i32::MAX];

/// Random records of each kind.
const RANDOM: usize = 10;

pub fn record_cases(random: &mut Xorshift) -> Vec<Case> {
    let mut cores = special_values();
    cores.extend(attached_or_grabbed());
    cores.extend(jumped_and_directions());
    let mut cases: Vec<Case> = cores.into_iter().map(Case::Record).collect();
    for hook_state in HOOK_STATES {
        for _ in 0..RANDOM {
            let core = CharacterCore {
                hook_state,
                ..core_from(&mut || random.pattern() as i32)
            };
            cases.push(Case::Record(core));
            // And the record that is made of what this one gave.
            cases.push(Case::State(from_net(core)));
        }
    }
    cases
}

/// For each hook state, each special value in each field once.
fn special_values() -> Vec<CharacterCore> {
    let mut cores = Vec::new();
    for hook_state in HOOK_STATES {
        for start in 0..INTEGERS.len() {
            let mut values = INTEGERS.into_iter().cycle().skip(start).step_by(2);
            let mut next = || values.next().expect("a cycle has no end");
            let core = core_from(&mut next);
            cores.push(CharacterCore { hook_state, ..core });
            if hook_state == ATTACHED_OR_GRABBED {
                let hooked_player = -1;
                cores.push(CharacterCore {
                    hook_state,
                    hooked_player,
                    ..core
                });
            }
        }
    }
    cores
}

fn attached_or_grabbed() -> Vec<CharacterCore> {
    let mut cores = Vec::new();
    for hooked_player in HOOKED_PLAYERS {
        for tick in TICKS {
            cores.push(CharacterCore {
                hooked_player,
                hook_state: ATTACHED_OR_GRABBED,
                hook_tick: Tick(tick),
                ..at_rest()
            });
        }
    }
    cores
}

fn jumped_and_directions() -> Vec<CharacterCore> {
    let mut cores = Vec::new();
    for jumped in JUMPED {
        for direction in DIRECTIONS {
            cores.push(CharacterCore {
                jumped,
                direction,
                ..at_rest()
            });
        }
    }
    cores
}

fn at_rest() -> CharacterCore {
    let mut numbers = 32..;
    core_from(&mut || numbers.next().expect("a range without end"))
}

/// The fields in their order.
fn core_from(next: &mut impl FnMut() -> i32) -> CharacterCore {
    CharacterCore {
        tick: next(),
        x: next(),
        y: next(),
        vel_x: next(),
        vel_y: next(),
        angle: next(),
        direction: next(),
        jumped: next(),
        hooked_player: next(),
        hook_state: next(),
        hook_tick: Tick(next()),
        hook_x: next(),
        hook_y: next(),
        hook_dx: next(),
        hook_dy: next(),
    }
}
