//! What random calls are drawn with.

use crate::call::Call;
use crate::roles::{Ask, BOARD, REFEREE};
use crate::slot::SEATS;
use crate::tunings::{HOOK_HOLD, ORDINARY, TUNINGS};
use crate::world::World;
pub use crate::world::is_clear;
use libtw2_gamenet::snap_obj::PlayerInput;
use original::State;
use reference::Xorshift;
use tile_map::Map;
use tile_map::draw::{below, pick, somewhere};

/// What is recorded is drawn among these: with more of them it would be other play. Where
/// all seats are meant it is [`SEATS`].
pub const FIRST_SEATS: usize = 16;

/// And among these tunings, which are all but the hold.
pub const FIRST_TUNINGS: usize = HOOK_HOLD;

/// Ids that no seat has.
const NO_SEATS: [i32; 4] = [-1, SEATS as i32, i32::MIN, i32::MAX];

/// Indexes that no tuning has.
const NO_TUNINGS: [i32; 4] = [-1, TUNINGS as i32, i32::MIN, i32::MAX];

/// Numbers that are no role, and those of seats that there are not.
const STRANGE_ROLES: [i32; 7] = [-3, -64, i32::MIN, i32::MIN + 1, SEATS as i32, 255, i32::MAX];

/// So often a clear place is looked for.
const TRIES: usize = 40;

/// Most often a place where a box is clear.
pub fn place(map: &Map, random: &mut Xorshift) -> (i32, i32) {
    let mut draw = || {
        let pos = somewhere(map, random);
        (pos.x as i32, pos.y as i32)
    };
    let mut places = (0..TRIES).map(|_| draw());
    let found = places.find(|&(x, y)| is_clear(map, x, y));
    found.unwrap_or_else(draw)
}

/// Of one of so many seats.
pub fn any_id(seats: usize, random: &mut Xorshift) -> i32 {
    below(random, seats) as i32
}

pub fn any_input(random: &mut Xorshift) -> PlayerInput {
    PlayerInput {
        direction: pick(random, &[-1, 0, 1]),
        target_x: (random.pattern() % 801) as i32 - 400,
        target_y: (random.pattern() % 801) as i32 - 400,
        jump: pick(random, &[0, 1]),
        hook: pick(random, &[0, 1, 1, 1]),
    }
}

/// Of somebody present, where somebody is.
pub fn present_id(world: &World, random: &mut Xorshift) -> i32 {
    let present: Vec<usize> = (0..SEATS).filter(|&id| world.slots[id].present).collect();
    if present.is_empty() {
        any_id(FIRST_SEATS, random)
    } else {
        pick(random, &present) as i32
    }
}

/// Aims at somebody present, where somebody is.
pub fn input_at_somebody(world: &World, id: i32, random: &mut Xorshift) -> PlayerInput {
    let place = |id: i32| State::from(world.slots[id as usize].character).pos;
    let way = place(present_id(world, random)) - place(id);
    PlayerInput {
        target_x: way.x as i32,
        target_y: way.y as i32,
        ..any_input(random)
    }
}

/// A step more often than not; now and then a call that is refused. Of so many seats, and
/// of those who are present.
pub fn any_call(seats: usize, world: &World, map: &Map, random: &mut Xorshift) -> Call {
    let id = match below(random, 8) {
        0 => any_id(seats, random),
        _ => present_id(world, random),
    };
    match below(random, 40) {
        0..=3 => any_join(seats, map, random),
        4 => Call::Leave { id },
        5 => wrong_call(seats, random),
        6 => mild_tune(random),
        7..=11 => Call::Input {
            id,
            input: any_input(random),
        },
        12..=17 => Call::Input {
            id,
            input: input_at_somebody(world, id, random),
        },
        _ => Call::Step,
    }
}

pub fn any_join(seats: usize, map: &Map, random: &mut Xorshift) -> Call {
    let (id, (x, y)) = (any_id(seats, random), place(map, random));
    Call::Join { id, x, y }
}

/// Near what is ordinary, or 0.
fn mild_tune(random: &mut Xorshift) -> Call {
    let index = below(random, FIRST_TUNINGS);
    let ordinary = ORDINARY[index];
    let hundredths = pick(random, &[0, ordinary / 2, ordinary, ordinary, ordinary * 2]);
    let index = index as i32;
    Call::Tune { index, hundredths }
}

/// A hold within its limits or outside, of a call that may be refused or in lent numbers.
pub fn any_hold(random: &mut Xorshift) -> i32 {
    let within = 1 + below(random, 60) as i32;
    let any = random.pattern() as i32;
    let limits = [1, 2, 59, 60];
    let outside = pick(random, &[0, 61, -1, 6000, any, i32::MIN, i32::MAX]);
    let hold = pick(random, &limits);
    pick(random, &[within, within, hold, hold, outside])
}

/// Any call, or now and then one that sets a hold.
pub fn any_call_or_hold(seats: usize, world: &World, map: &Map, random: &mut Xorshift) -> Call {
    match below(random, 24) {
        0 => Call::Tune {
            index: HOOK_HOLD as i32,
            hundredths: any_hold(random),
        },
        _ => any_call(seats, world, map, random),
    }
}

/// One of the ends, or anything.
pub fn extreme_tuning(index: usize, random: &mut Xorshift) -> i32 {
    let ordinary = ORDINARY[index];
    let any = random.pattern() as i32;
    let choice = [0, -ordinary, ordinary, any, any % 10000, i32::MIN, i32::MAX];
    pick(random, &choice)
}

/// With an argument outside its limits.
pub fn wrong_call(seats: usize, random: &mut Xorshift) -> Call {
    let id = pick(random, &NO_SEATS);
    let far = pick(random, &[100_001, -100_001, i32::MAX, i32::MIN]);
    let (x, y) = pick(random, &[(far, 20), (20, far), (far, far)]);
    let index = pick(random, &NO_TUNINGS);
    let calls = [
        Call::Join { id, x: 20, y: 20 },
        Call::Join {
            id: any_id(seats, random),
            x,
            y,
        },
        Call::Leave { id },
        Call::Input {
            id,
            input: any_input(random),
        },
        Call::Tune {
            index,
            hundredths: 0,
        },
    ];
    pick(random, &calls)
}

/// A call, or a read of somebody present; now and then of somebody absent or of no seat.
pub fn any_ask(seats: usize, world: &World, map: &Map, random: &mut Xorshift) -> Ask {
    let id = match below(random, 8) {
        0 => any_id(seats, random),
        1 => pick(random, &NO_SEATS),
        _ => present_id(world, random),
    };
    match below(random, 10) {
        0 | 1 => Ask::Record { id },
        2 => Ask::FloorMark { id },
        3 => Ask::StoredInput { id },
        4 => any_read_of_tunings(random),
        _ => Ask::Call(any_call(seats, world, map, random)),
    }
}

fn any_read_of_tunings(random: &mut Xorshift) -> Ask {
    let index = match below(random, 4) {
        0 => pick(random, &NO_TUNINGS),
        _ => below(random, TUNINGS) as i32,
    };
    Ask::Tuning { index }
}

/// The referee more often than not; the seat that the ask names, another one, a board, or a
/// number that is no role.
pub fn any_role(seats: usize, ask: Ask, random: &mut Xorshift) -> i32 {
    match below(random, 10) {
        0 => BOARD,
        1 => pick(random, &STRANGE_ROLES),
        2 => any_id(seats, random),
        3 | 4 => ask.named_id().unwrap_or(BOARD),
        _ => REFEREE,
    }
}
