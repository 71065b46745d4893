//! How could she get there?

use crate::fence::{Access, take_back};
use crate::ffi;
use crate::function::Function;
use crate::played::{Compared, Played, same_answer};
use crate::server::Server;
use crate::stops::unless_it_stops;
use compare_world::differs::Differs;
use compare_world::searches::faulty;
use harness::encoding::decoded;
use record_search::Search;
use record_search::playing::Goal;
use reference::Xorshift;
use tile_map::Map;
use tile_map::draw::below;

/// One in so many gets further faults.
const FAULTY_EVERY: usize = 3;

pub fn play(server: &mut Server, random: &mut Xorshift) -> Result<Played, Differs> {
    let world = decoded(server.world.array());
    let (map, goal) = (server.map(), Goal::drawn(&world, random));
    let place = unless_it_stops(|| goal.place(&world, &map)).unwrap_or_default();
    let (mut search, mut map) = faulty(Search::of(goal.id, place), &map, random);
    if below(random, FAULTY_EVERY) == 0 {
        (search, map) = faulty(search, &map, random);
    }
    let (compared, answer) = made(server, &search, &map).map_err(|what| {
        let Search {
            role,
            id,
            place,
            lengths,
        } = search;
        let sides = (map.width, map.height);
        what.at(format!(
            "search, role {role}, {id} to {place:?}, map {sides:?}, {lengths:?}"
        ))
    })?;
    Ok(Played::of(Function::Search, answer, compared))
}

fn made(server: &mut Server, search: &Search, map: &Map) -> Result<(Compared, u32), Differs> {
    let answer = searched(server, search, map);
    take_back(
        answer,
        &mut [&mut server.world, &mut server.tiles, &mut server.way],
    )?;
    let Some(expected) = unless_it_stops(|| search.answer(server.world.lent(), map)) else {
        return Ok((Compared::Stopped, answer));
    };
    if let Some(way) = same_answer(answer, expected)? {
        server.way.expect(&way)?;
    }
    Ok((Compared::Whole, answer))
}

fn searched(server: &mut Server, search: &Search, map: &Map) -> u32 {
    let world = server.world.lend(search.lengths.0, Access::Read);
    let tiles = server.tiles.lend(map.tiles.len(), Access::Read);
    let way = server.way.lend(search.lengths.1, Access::Write);
    // SAFETY: each loan is of as many elements as it says, and none overlaps another.
    unsafe {
        ffi::ponguriena_search(
            search.role,
            world.pointer,
            world.length,
            map.width as u32,
            map.height as u32,
            tiles.pointer,
            tiles.length,
            search.id,
            search.place.0,
            search.place.1,
            way.pointer,
            way.length,
        )
    }
}
