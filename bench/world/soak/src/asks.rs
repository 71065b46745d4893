//! Calls on the world and reads of it.

mod raw;

use crate::fence::take_back;
use crate::function::Function;
use crate::played::{Compared, Played};
use crate::server::Server;
use crate::stops::unless_it_stops;
use crate::turns::Asked;
use compare_world::differs::{Differs, same};
use compare_world::lent_asks::{LENGTHS, Lent, Turn, any_lengths, left_by_original};
use reference::Xorshift;

pub fn play(server: &mut Server, asked: Asked, random: &mut Xorshift) -> Result<Played, Differs> {
    let lengths = match asked.faulty {
        true => any_lengths(LENGTHS, random),
        false => LENGTHS,
    };
    let turn = Turn {
        role: asked.role,
        ask: asked.ask,
        map: asked.map,
        lengths,
    };
    made(server, &turn).map_err(|what| {
        let (role, numbers, map) = (turn.role, turn.ask.numbers(), &turn.map);
        let sides = (map.width, map.height, map.tiles.len());
        what.at(format!(
            "role {role}, {numbers:?}, map {sides:?}, lengths {lengths:?}"
        ))
    })
}

fn made(server: &mut Server, turn: &Turn) -> Result<Played, Differs> {
    let function = Function::of_ask(turn.ask);
    let loans = raw::lend(server, turn);
    let before = lent(server);
    // SAFETY: each loan is of as many elements as it says, and none overlaps another.
    let answer = unsafe { raw::asked(&loans, turn) };
    take_back(
        answer,
        &mut [
            &mut server.world,
            &mut server.tiles,
            &mut server.records,
            &mut server.removed,
            &mut server.record,
            &mut server.input,
            &mut server.number,
            &mut server.count,
        ],
    )
    .map_err(|what| what.at(function.name()))?;
    let Some(expected) = unless_it_stops(|| left_by_original(&before, turn)) else {
        return Ok(Played::of(function, answer, Compared::Stopped));
    };
    same(
        function.name(),
        answer,
        expected.as_ref().err().copied().unwrap_or(0),
    )?;
    compare(server, &expected.unwrap_or(before)).map_err(|what| what.at(function.name()))?;
    Ok(Played::of(function, answer, Compared::Whole))
}

/// What was lent.
pub fn lent(server: &Server) -> Lent {
    let buffers = [
        &server.world,
        &server.records,
        &server.removed,
        &server.record,
        &server.input,
    ];
    Lent {
        buffers: buffers.map(|buffer| buffer.lent().to_vec()),
        number: server.number.lent()[0],
        count: server.count.lent()[0],
    }
}

pub fn compare(server: &Server, expected: &Lent) -> Result<(), Differs> {
    let [world, records, removed, record, input] = &expected.buffers;
    server.world.expect(world)?;
    server.records.expect(records)?;
    server.removed.expect(removed)?;
    server.record.expect(record)?;
    server.input.expect(input)?;
    server.number.expect(&[expected.number])?;
    server.count.expect(&[expected.count])
}
