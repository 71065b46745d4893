//! Leaves, tunes and steps through the sender.

mod raw;

use crate::fence::take_back;
use crate::played::{Compared, Played};
use crate::server::Server;
use crate::stops::unless_it_stops;
use crate::turns::Asked;
use compare_world::differs::{Differs, same};
use compare_world::lent_asks::any_lengths;
use compare_world::send_calls::{Left, left_by_original};
use harness::encoding::{RECORDS_NUMBERS, WORLD_NUMBERS};
use harness::roles::{Ask, check_role};
use harness::sending::SENDER_NUMBERS;
use harness::{Call, Refusal, SEATS};
use ponguriena::send_buffers::PASSED_NUMBERS;
use reference::Xorshift;
use tile_map::Map;

/// What is lent: the world, the sender, what is passed along; a step's records and whom it removes.
const LENGTHS: [usize; 5] = [
    WORLD_NUMBERS,
    SENDER_NUMBERS,
    PASSED_NUMBERS,
    RECORDS_NUMBERS,
    SEATS,
];

/// The first of them are for every call, the others for a step alone.
const OF_ALL: usize = 3;

pub struct Turn {
    pub role: i32,
    pub call: Call,
    pub map: Map,
    pub lengths: [usize; 5],
}

/// What is passed along waits to arrive.
pub fn play(
    server: &mut Server,
    asked: Asked,
    call: Call,
    random: &mut Xorshift,
) -> Result<Played, Differs> {
    let lengths = match asked.faulty {
        true => drawn_lengths(call, random),
        false => LENGTHS,
    };
    let turn = Turn {
        role: asked.role,
        call,
        map: asked.map,
        lengths,
    };
    let played = made(server, &turn).map_err(|what| {
        let (role, numbers, map) = (turn.role, call.numbers(), &turn.map);
        let sides = (map.width, map.height, map.tiles.len());
        what.at(format!(
            "by a sender, role {role}, {numbers:?}, map {sides:?}, lengths {lengths:?}"
        ))
    })?;
    if played.answer == 0 {
        let count = server.count.lent()[0];
        server.pass_along(count);
    }
    Ok(played)
}

/// What the call does not take has its right length.
fn drawn_lengths(call: Call, random: &mut Xorshift) -> [usize; 5] {
    let mut lengths = any_lengths(LENGTHS, random);
    if !matches!(call, Call::Step) {
        lengths[OF_ALL..].copy_from_slice(&LENGTHS[OF_ALL..]);
    }
    lengths
}

fn made(server: &mut Server, turn: &Turn) -> Result<Played, Differs> {
    let loans = raw::lend(server, turn);
    let before = left(server, turn);
    // SAFETY: each loan is of as many elements as it says, and none overlaps another.
    let (function, answer) = unsafe { raw::called(&loans, turn) };
    take_back(
        answer,
        &mut [
            &mut server.world,
            &mut server.sender,
            &mut server.tiles,
            &mut server.records,
            &mut server.removed,
            &mut server.removed_count,
            &mut server.passed,
            &mut server.count,
        ],
    )?;
    let before = match before {
        Ok(before) => before,
        Err(refusal) => {
            // That nothing was written is seen already.
            same("answer", answer, refusal.number())?;
            return Ok(Played::of(function, answer, Compared::Whole));
        }
    };
    let expect = || left_by_original(*before, &turn.map, turn.role, turn.call);
    let Some(expected) = unless_it_stops(expect) else {
        return Ok(Played::of(function, answer, Compared::Stopped));
    };
    compare(server, answer, &expected)?;
    Ok(Played::of(function, answer, Compared::Whole))
}

/// What stands there before. Refused by the role, then by the lengths.
fn left(server: &Server, turn: &Turn) -> Result<Box<Left>, Refusal> {
    check_role(turn.role, Ask::Call(turn.call))?;
    Refusal::Length.when(turn.lengths != LENGTHS)?;
    Ok(Box::new(Left {
        answer: 0,
        world: *server.world.array(),
        sender: *server.sender.array(),
        records: *server.records.array(),
        removed: *server.removed.array(),
        removed_count: server.removed_count.lent()[0],
        passed: *server.passed.array(),
        count: server.count.lent()[0],
    }))
}

fn compare(server: &Server, answer: u32, expected: &Left) -> Result<(), Differs> {
    same("answer", answer, expected.answer)?;
    server.world.expect(&expected.world)?;
    server.sender.expect(&expected.sender)?;
    server.records.expect(&expected.records)?;
    server.removed.expect(&expected.removed)?;
    server.removed_count.expect(&[expected.removed_count])?;
    server.passed.expect(&expected.passed)?;
    server.count.expect(&[expected.count])
}
