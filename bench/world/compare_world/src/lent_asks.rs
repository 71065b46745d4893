//! Calls and reads as any role on any numbers, through the buffers, some of a wrong length.

use crate::any_numbers::{self, Numbers};
use crate::differs::{Differs, same, same_numbers};
use crate::sequences;
use harness::draw::{any_ask, any_call_or_hold, any_role, wrong_call};
use harness::encoding::{RECORDS_NUMBERS, WORLD_NUMBERS, decoded, encoded};
use harness::encoding::{encoded_records, encoded_removed};
use harness::rewriting::rewritten;
use harness::roles::{Ask, REFEREE, Told, check_role};
use harness::{Call, Refusal, SEATS, World};
use original::{CORE_NUMBERS, INPUT_NUMBERS};
use ponguriena::buffers;
use port_calls::{call_on, lent, number};
use record_calls::told_map;
use record_roles::RoleSequence;
use reference::Xorshift;
use std::fmt::{Display, Formatter, Result as Written};
use std::panic::catch_unwind;
use tile_map::Map;
use tile_map::draw::{below, pick};

/// So many are made on each buffer, one after another.
const ASKS: usize = 12;

/// What the buffers that are written hold before.
const UNWRITTEN: i32 = 77;

/// What is lent: the world, a step's records and whom it removes, a record and an input.
pub const LENGTHS: [usize; 5] = [
    WORLD_NUMBERS,
    RECORDS_NUMBERS,
    SEATS,
    CORE_NUMBERS,
    INPUT_NUMBERS,
];

#[derive(Default)]
pub struct Tally {
    calls: usize,
    reads: usize,
    accepted: usize,
    /// Refused since the role does not allow them.
    beyond: usize,
    refused: usize,
    stopped: usize,
    removed: usize,
}

/// One that is made.
pub struct Turn {
    pub role: i32,
    pub ask: Ask,
    /// As told, with sides that may not be its own.
    pub map: Map,
    pub lengths: [usize; 5],
}

/// All that is lent.
#[derive(Clone)]
pub struct Lent {
    pub buffers: [Vec<i32>; 5],
    /// For a floor mark or a tuning.
    pub number: i32,
    /// How many are removed.
    pub count: usize,
}

pub fn compare(seed: u64, number: u64, tally: &mut Tally) -> Result<(), Differs> {
    let sequence = sequences::drawn(seed, number);
    let mut random = Xorshift::seeded(seed.wrapping_mul(1 << 40).wrapping_add(number));
    let mut numbers = any_numbers::drawn(&sequence.world, &mut random);
    for place in 0..ASKS {
        let turn = drawn_turn(&decoded(&numbers), &sequence.map, &mut random);
        numbers = compare_turn(numbers, &turn, tally).map_err(|what| turn.at(place, what))?;
    }
    Ok(())
}

/// From a fresh world, with buffers of the right length.
pub fn replay(sequence: &RoleSequence, tally: &mut Tally) -> Result<(), Differs> {
    let mut numbers = encoded(&World::fresh());
    for (place, line) in sequence.lines.iter().enumerate() {
        let turn = Turn {
            role: line.role,
            ask: line.ask,
            map: told_map(&line.map, line.sides),
            lengths: LENGTHS,
        };
        numbers = compare_turn(numbers, &turn, tally).map_err(|what| turn.at(place, what))?;
        same_numbers("recorded world", &numbers, &encoded(&line.after))?;
    }
    Ok(())
}

/// A call of the referee, a step of it half of the times; or anything of anybody.
pub fn drawn_turn(world: &World, map: &Map, random: &mut Xorshift) -> Turn {
    let call = match below(random, 4) {
        0 => Call::Step,
        1 => any_call_or_hold(SEATS, world, map, random),
        _ => return anybodys_turn(world, map, random),
    };
    Turn {
        role: REFEREE,
        ask: Ask::Call(call),
        map: map.clone(),
        lengths: LENGTHS,
    }
}

/// What is lent and the arguments are at fault more often than in play.
fn anybodys_turn(world: &World, map: &Map, random: &mut Xorshift) -> Turn {
    let ask = match below(random, 4) {
        0 => Ask::Call(wrong_call(SEATS, random)),
        _ => any_ask(SEATS, world, map, random),
    };
    let sides = sequences::sides((map.width as u32, map.height as u32), random);
    Turn {
        role: any_role(SEATS, ask, random),
        ask,
        map: told_map(map, sides),
        lengths: any_lengths(LENGTHS, random),
    }
}

/// The right ones more often than not; else one of them is another.
pub fn any_lengths<const N: usize>(mut lengths: [usize; N], random: &mut Xorshift) -> [usize; N] {
    if below(random, 3) == 0 {
        let length = &mut lengths[below(random, N)];
        *length = pick(
            random,
            &[0, 1, length.saturating_sub(1), *length + 1, 2 * *length],
        );
    }
    lengths
}

/// The numbers that the port left. Where libtw2 stops nothing is compared.
fn compare_turn(numbers: Numbers, turn: &Turn, tally: &mut Tally) -> Result<Numbers, Differs> {
    let before = Lent::of(&numbers, turn.lengths);
    let (answer, port) = left_by_port(before.clone(), turn);
    let expected = catch_unwind(|| left_by_original(&before, turn));
    let left = port.buffers[0].clone().try_into().unwrap_or(numbers);
    let Ok(expected) = expected else {
        tally.stopped += 1;
        return Ok(left);
    };
    let refusal = expected.as_ref().err().copied();
    same("answer", answer, refusal.unwrap_or(0))?;
    let expected = expected.unwrap_or(before);
    for (port, expected) in port.buffers.iter().zip(&expected.buffers) {
        same_numbers("what was lent", port, expected)?;
    }
    same("number that was lent", port.number, expected.number)?;
    same("count of the removed", port.count, expected.count)?;
    tally.add(turn.ask, answer, port.count);
    Ok(left)
}

fn left_by_port(mut left: Lent, turn: &Turn) -> (u32, Lent) {
    let role = turn.role;
    let [world, records, removed, record, input] = &mut left.buffers;
    let answer = match turn.ask {
        Ask::Call(call) => call_on(role, world, &lent(&turn.map), call, records, removed)
            .map(|count| left.count = count),
        Ask::Record { id } => buffers::record(role, world, id, record),
        Ask::FloorMark { id } => buffers::floor_mark(role, world, id, &mut left.number),
        Ask::StoredInput { id } => buffers::player_input(role, world, id, input),
        Ask::Tuning { index } => buffers::tuning(role, world, index, &mut left.number),
    };
    (number(&answer), left)
}

/// A refused one leaves everything as it was. The role is asked for first, then the lengths.
pub fn left_by_original(before: &Lent, turn: &Turn) -> Result<Lent, u32> {
    check_role(turn.role, turn.ask).map_err(Refusal::number)?;
    let is_right = |&place: &usize| before.buffers[place].len() == LENGTHS[place];
    if !places_lent(turn.ask).iter().all(is_right) {
        return Err(Refusal::Length.number());
    }
    let numbers: Numbers = before.buffers[0][..].try_into().expect("the right length");
    let mut world = decoded(&numbers);
    let told = world
        .ask(&turn.map, turn.role, turn.ask)
        .map_err(Refusal::number)?;
    Ok(before.clone().after(turn.ask, &told, numbers, &world))
}

/// Which buffers it takes.
fn places_lent(ask: Ask) -> &'static [usize] {
    match ask {
        Ask::Call(Call::Step) => &[0, 1, 2],
        Ask::Record { .. } => &[0, 3],
        Ask::StoredInput { .. } => &[0, 4],
        _ => &[0],
    }
}

impl Turn {
    fn at(&self, place: usize, what: Differs) -> Differs {
        let (role, numbers) = (self.role, self.ask.numbers());
        what.at(format!("ask {} (role {role}, {numbers:?})", place + 1))
    }
}

impl Lent {
    /// The world's numbers as far as they go.
    fn of(numbers: &Numbers, lengths: [usize; 5]) -> Lent {
        let mut buffers = lengths.map(|length| vec![UNWRITTEN; length]);
        for (lent, number) in buffers[0].iter_mut().zip(numbers) {
            *lent = *number;
        }
        Lent {
            buffers,
            number: UNWRITTEN,
            count: 0,
        }
    }

    /// What one that is accepted writes, which left that world.
    fn after(mut self, ask: Ask, told: &Told, numbers: Numbers, world: &World) -> Lent {
        let [lent, records, removed, record, input] = &mut self.buffers;
        match (ask, told) {
            (Ask::Call(call), Told::Published(told)) => {
                *lent = rewritten(numbers, call, world, told).to_vec();
                if let Call::Step = call {
                    let (ids, count) = encoded_removed(told);
                    (*removed, self.count) = (ids.to_vec(), count);
                    *records = encoded_records(told).to_vec();
                }
            }
            (Ask::Record { .. }, Told::Read(read)) => record.clone_from(read),
            (Ask::StoredInput { .. }, Told::Read(read)) => input.clone_from(read),
            (_, Told::Read(read)) => self.number = read[0],
            (_, Told::Published(_)) => panic!("a read publishes nothing"),
        }
        self
    }
}

impl Tally {
    fn add(&mut self, ask: Ask, answer: u32, removed: usize) {
        match ask {
            Ask::Call(_) => self.calls += 1,
            _ => self.reads += 1,
        }
        match answer {
            0 => self.accepted += 1,
            13 => self.beyond += 1,
            _ => self.refused += 1,
        }
        self.removed += removed;
    }
}

impl Display for Tally {
    fn fmt(&self, formatter: &mut Formatter<'_>) -> Written {
        let Tally {
            calls,
            reads,
            accepted,
            beyond,
            refused,
            stopped,
            removed,
        } = self;
        write!(
            formatter,
            "{calls} calls and {reads} reads, of which {accepted} accepted, {beyond} beyond their \
             role and {refused} refused otherwise; {stopped} on which libtw2 stops, {removed} \
             characters removed"
        )
    }
}
