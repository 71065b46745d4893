//! The pairs that are drawn.

use harness::draw::{any_hold, any_id, any_input, place};
use harness::tunings::{HOOK_HOLD, ORDINARY, PLAYER_COLLISION, PLAYER_HOOKING};
use harness::{Call, SEATS};
use reference::Xorshift;
use tile_map::Map;
use tile_map::draw::{below, pick, random_map};

/// So many calls, with the tunes at the start, are in both lists.
const SHARED: usize = 60;

/// Less than so many are for others, before each of those.
const OTHERS: usize = 5;

/// A hold is tuned after so many steps.
const HOLD_EVERY: usize = 7;

/// One id, and two lists that are the same once the calls for other ids are struck out.
pub struct Pair {
    pub map: Map,
    pub id: i32,
    pub lists: [Vec<Call>; 2],
}

/// That of a number. The two tunings have this value, 0 in a solo heat.
pub fn drawn(seed: u64, number: u64, tuned: i32) -> Pair {
    let mut random = Xorshift::seeded(seed.wrapping_mul(1 << 32).wrapping_add(number));
    // A line of vectors has room for 64 tiles.
    let (width, height) = (3 + below(&mut random, 6), 3 + below(&mut random, 6));
    let share = pick(&mut random, &[0, 2, 6]);
    let map = random_map(width, height, share, &mut random);
    let id = any_id(SEATS, &mut random);
    let shared = shared(id, &map, tuned, &mut random);
    let lists = [(); 2].map(|()| beside_others(&shared, id, &map, &mut random));
    Pair { map, id, lists }
}

impl Pair {
    /// With holds that are tuned after the same steps in both lists.
    pub fn with_holds(self, seed: u64) -> Pair {
        let mut random = Xorshift::seeded(seed);
        let holds = [(); SHARED / HOLD_EVERY].map(|()| any_hold(&mut random));
        let lists = self.lists.map(|calls| held(calls, &holds));
        Pair { lists, ..self }
    }
}

fn held(calls: Vec<Call>, holds: &[i32]) -> Vec<Call> {
    let (mut steps, mut with_holds) = (0, Vec::new());
    for call in calls {
        with_holds.push(call);
        steps += usize::from(matches!(call, Call::Step));
        if matches!(call, Call::Step) && steps.is_multiple_of(HOLD_EVERY) {
            with_holds.push(tune(HOOK_HOLD, holds[steps / HOLD_EVERY - 1]));
        }
    }
    with_holds
}

/// Those of the id, the tunes and the steps.
fn shared(id: i32, map: &Map, tuned: i32, random: &mut Xorshift) -> Vec<Call> {
    let mut calls = vec![
        tune(PLAYER_COLLISION, tuned),
        tune(PLAYER_HOOKING, tuned),
        join(id, map, random),
    ];
    while calls.len() < SHARED {
        match below(random, 24) {
            0..=5 => calls.push(input(id, random)),
            6 => calls.push(join(id, map, random)),
            7 if below(random, 4) == 0 => calls.push(Call::Leave { id }),
            8 => calls.push(mild_tune(random)),
            // Another value, but not when step is called.
            9 => calls.extend([tune(PLAYER_HOOKING, 100), tune(PLAYER_HOOKING, tuned)]),
            _ => calls.push(Call::Step),
        }
    }
    calls
}

fn beside_others(shared: &[Call], id: i32, map: &Map, random: &mut Xorshift) -> Vec<Call> {
    let mut calls = Vec::new();
    for &call in shared {
        for _ in 0..below(random, OTHERS) {
            calls.push(for_another(id, map, random));
        }
        calls.push(call);
    }
    calls
}

/// One of a few others, so that many are accepted; now and then of no seat.
fn for_another(id: i32, map: &Map, random: &mut Xorshift) -> Call {
    let seats = SEATS as i32;
    let other = match below(random, 30) {
        0 => pick(random, &[-1, seats, i32::MIN, i32::MAX]),
        _ => (id + pick(random, &[1, 2, 3, seats - 2, seats - 1])) % seats,
    };
    match below(random, 12) {
        0 => Call::Leave { id: other },
        1..=4 => join(other, map, random),
        _ => input(other, random),
    }
}

fn join(id: i32, map: &Map, random: &mut Xorshift) -> Call {
    let (x, y) = place(map, random);
    Call::Join { id, x, y }
}

fn input(id: i32, random: &mut Xorshift) -> Call {
    let input = any_input(random);
    Call::Input { id, input }
}

fn tune(index: usize, hundredths: i32) -> Call {
    let index = index as i32;
    Call::Tune { index, hundredths }
}

/// Of the sixteen that may be anything.
fn mild_tune(random: &mut Xorshift) -> Call {
    let index = below(random, PLAYER_COLLISION);
    let ordinary = ORDINARY[index];
    let hundredths = pick(random, &[0, ordinary / 2, ordinary, ordinary * 2]);
    tune(index, hundredths)
}
