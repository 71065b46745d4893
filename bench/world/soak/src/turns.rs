//! What is asked of the world next, and by whom.

use crate::life::{Kind, Life};
use crate::server::Server;
use compare_world::any_numbers::any;
use harness::draw::{
    any_ask, any_call_or_hold, any_hold, any_id, any_join, any_role, extreme_tuning, place,
    present_id, wrong_call,
};
use harness::encoding::decoded;
use harness::roles::{Ask, REFEREE};
use harness::tunings::{HOOK_HOLD, ORDINARY};
use harness::{Call, SEATS, World};
use original::input_of;
use reference::Xorshift;
use tile_map::Map;
use tile_map::draw::{below, pick, somewhere};

/// One in so many may be at fault in all that it can be at fault in.
const FAULTY_EVERY: usize = 6;

pub struct Asked {
    pub role: i32,
    pub ask: Ask,
    /// As told.
    pub map: Map,
    /// Whether the lengths may be wrong too.
    pub faulty: bool,
}

pub fn drawn(server: &Server, random: &mut Xorshift) -> Asked {
    let world = decoded(server.world.array());
    let faulty = below(random, FAULTY_EVERY) == 0;
    let ask = drawn_ask(&server.life, &world, &server.map(), random);
    Asked {
        role: drawn_role(ask, faulty, random),
        ask,
        map: server.told_map(faulty, random),
        faulty,
    }
}

/// Half of the inputs are told by who is to play them.
fn drawn_role(ask: Ask, faulty: bool, random: &mut Xorshift) -> i32 {
    match ask {
        _ if faulty => any_role(SEATS, ask, random),
        Ask::Call(Call::Input { id, .. }) if id >= 0 => pick(random, &[id, REFEREE]),
        _ => REFEREE,
    }
}

fn drawn_ask(life: &Life, world: &World, map: &Map, random: &mut Xorshift) -> Ask {
    let missing = world.slots[..life.seats]
        .iter()
        .position(|slot| !slot.present);
    if let (true, Some(id), 0) = (life.full, missing, below(random, 2)) {
        let (id, (x, y)) = (id as i32, place(map, random));
        return Ask::Call(Call::Join { id, x, y });
    }
    let call = match below(random, 32) {
        0..=3 => return any_ask(life.seats, world, map, random),
        4..=6 => any_join(life.seats, map, random),
        7 => join_anywhere(map, random),
        8 => wild_input(world, random),
        9 => Call::Leave {
            id: any_id(life.seats, random),
        },
        10 => drawn_tune(life.kind, random),
        11 if below(random, 3) == 0 => wrong_call(SEATS, random),
        _ => any_call_or_hold(life.seats, world, map, random),
    };
    Ask::Call(call)
}

/// In a wall, in reach or not.
fn join_anywhere(map: &Map, random: &mut Xorshift) -> Call {
    let inside = somewhere(map, random);
    let ends = [100_000, -100_000, 100_001, -100_001, 0];
    let far = (pick(random, &ends), pick(random, &ends));
    let near = (inside.x as i32, inside.y as i32);
    let any = (any(random), any(random));
    let (x, y) = pick(random, &[near, near, near, far, any]);
    let id = any_id(SEATS, random);
    Call::Join { id, x, y }
}

/// No client sends such numbers unless it is meant.
fn wild_input(world: &World, random: &mut Xorshift) -> Call {
    let id = present_id(world, random);
    let input = input_of([(); 5].map(|()| any(random)));
    Call::Input { id, input }
}

/// Back to the game's own more often than not, where they are not to be extreme.
fn drawn_tune(kind: Kind, random: &mut Xorshift) -> Call {
    let place = below(random, ORDINARY.len());
    let hundredths = match (kind, place) {
        (_, HOOK_HOLD) => any_hold(random),
        (Kind::Extreme, _) => extreme_tuning(place, random),
        _ => pick(
            random,
            &[ORDINARY[place], ORDINARY[place], 0, ORDINARY[place] * 3 / 2],
        ),
    };
    let index = place as i32;
    Call::Tune { index, hundredths }
}
