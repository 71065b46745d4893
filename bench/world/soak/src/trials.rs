//! Trial players on the server's map.

use crate::fence::{Access, Fenced, take_back};
use crate::ffi;
use crate::function::Function;
use crate::played::{Compared, Played, same_answer};
use crate::server::Server;
use crate::stops::unless_it_stops;
use compare_world::differs::Differs;
use compare_world::trials::faulty;
use record_trial::Case;
use record_trial::playing::drawn;
use reference::Xorshift;
use tile_map::draw::below;

/// Short ones, at most.
const STEPS: usize = 30;
const PLAYERS: usize = 6;

/// As wide as a right or a wrong length may be.
const ROOM: usize = 300;
const RESULT_ROOM: usize = 2_000;

/// What one is lent beside the map.
struct Buffers {
    joins: Fenced<i32>,
    targets: Fenced<i32>,
    tunings: Fenced<i32>,
    result: Fenced<i32>,
}

pub fn play(server: &mut Server, random: &mut Xorshift) -> Result<Played, Differs> {
    let (players, steps) = (below(random, PLAYERS + 1), below(random, STEPS + 1));
    let case = drawn(&server.map(), players, steps as i32, random);
    let case = match below(random, 2) {
        0 => faulty(case, random),
        _ => case,
    };
    let (compared, answer) = made(server, &case).map_err(|what| {
        let Case {
            sides,
            joins,
            steps,
            ..
        } = &case;
        what.at(format!("trial, map {sides:?}, {joins:?}, {steps} steps"))
    })?;
    Ok(Played::of(Function::Trial, answer, compared))
}

fn made(server: &mut Server, case: &Case) -> Result<(Compared, u32), Differs> {
    let mut buffers = Buffers {
        joins: Fenced::new("joins", ROOM),
        targets: Fenced::new("targets", ROOM),
        tunings: Fenced::new("tunings", ROOM),
        result: Fenced::new("result", RESULT_ROOM),
    };
    let answer = run(server, case, &mut buffers);
    take_back(
        answer,
        &mut [
            &mut server.tiles,
            &mut buffers.joins,
            &mut buffers.targets,
            &mut buffers.tunings,
            &mut buffers.result,
        ],
    )?;
    let Some(expected) = unless_it_stops(|| case.answer()) else {
        return Ok((Compared::Stopped, answer));
    };
    if let Some(rows) = same_answer(answer, expected)? {
        buffers.result.expect(&rows)?;
    }
    Ok((Compared::Whole, answer))
}

fn run(server: &mut Server, case: &Case, buffers: &mut Buffers) -> u32 {
    let [joins, targets, tunings] = case.lent();
    buffers.joins.put(&joins);
    buffers.targets.put(&targets);
    buffers.tunings.put(&tunings);
    let tiles = server.tiles.lend(case.map.tiles.len(), Access::Read);
    let joins = buffers.joins.lend(joins.len(), Access::Read);
    let targets = buffers.targets.lend(targets.len(), Access::Read);
    let tunings = buffers.tunings.lend(tunings.len(), Access::Read);
    let result = buffers.result.lend(case.lengths().result, Access::Write);
    // SAFETY: each loan is of as many elements as it says, and none overlaps another.
    unsafe {
        ffi::ponguriena_trial(
            case.sides.0,
            case.sides.1,
            tiles.pointer,
            tiles.length,
            joins.pointer,
            joins.length,
            targets.pointer,
            targets.length,
            tunings.pointer,
            tunings.length,
            case.steps,
            result.pointer,
            result.length,
        )
    }
}
