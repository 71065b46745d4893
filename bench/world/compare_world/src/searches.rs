//! Searches as any role on any numbers, through the buffers, some of a wrong length.

use crate::any_numbers::{self, Numbers};
use crate::differs::{Differs, same, same_numbers};
use crate::sequences;
use harness::SEATS;
use harness::draw::any_id;
use harness::encoding::{SEAT_NUMBERS, decoded, encoded};
use harness::roles::BOARD;
use harness::tunings::TUNINGS;
use ponguriena::buffers;
use port_calls::{lent, number};
use record_calls::told_map;
use record_search::playing::Goal;
use record_search::{Asked, Search, SearchSequence, UNWRITTEN};
use reference::Xorshift;
use std::fmt::{Display, Formatter, Result as Written};
use std::panic::catch_unwind;
use tile_map::Map;
use tile_map::draw::{below, pick};

/// So many are made on each world.
const SEARCHES: usize = 4;

/// One in so many worlds is of numbers that no call may have left.
const ANY_EVERY: u64 = 3;

/// One seat in so many of these stays taken.
const FEW: usize = 16;

/// What was compared.
#[derive(Default)]
pub struct Tally {
    /// By the steps of the way that was told; the first are those with none.
    pub ways: [usize; 4],
    pub refused: usize,
    stopped: usize,
}

/// On the world that a sequence leaves, or on numbers near it.
pub fn compare(seed: u64, number: u64, tally: &mut Tally) -> Result<(), Differs> {
    let sequence = sequences::drawn(seed, number);
    let random = &mut Xorshift::seeded(seed.wrapping_mul(1 << 40).wrapping_add(number));
    let numbers = match number % ANY_EVERY {
        0 => with_few(any_numbers::drawn(&sequence.world, random), random),
        _ => encoded(&sequence.world),
    };
    for turn in 0..SEARCHES {
        let (goal, world) = (Goal::drawn(&decoded(&numbers), random), decoded(&numbers));
        let Ok(place) = catch_unwind(|| goal.place(&world, &sequence.map)) else {
            tally.stopped += 1;
            continue;
        };
        let (search, map) = faulty(Search::of(goal.id, place), &sequence.map, random);
        let told = |what: Differs| what.at(format!("search {}", turn + 1));
        compare_search(&numbers, &map, &search, tally).map_err(told)?;
    }
    Ok(())
}

/// With a few of those who are there: any numbers are fast, and every list is tried.
fn with_few(mut numbers: Numbers, random: &mut Xorshift) -> Numbers {
    let seats = numbers[TUNINGS..].chunks_mut(SEAT_NUMBERS);
    for seat in seats.filter(|_| below(random, FEW) != 0) {
        seat[0] = 0;
    }
    numbers
}

/// The recorded ones.
pub fn replay(sequence: &SearchSequence, tally: &mut Tally) -> Result<(), Differs> {
    for line in &sequence.lines {
        if let Asked::Search(search) = line.asked {
            compare_search(&encoded(&line.after), &line.told_map(), &search, tally)?;
        }
    }
    Ok(())
}

/// One in four has a fault or two, so that their order shows.
pub fn faulty(mut search: Search, map: &Map, random: &mut Xorshift) -> (Search, Map) {
    let mut sides = (map.width as u32, map.height as u32);
    for _ in 0..pick(random, &[0, 0, 0, 0, 0, 0, 1, 2]) {
        let id = any_id(SEATS, random);
        match below(random, 4) {
            0 => search.role = pick(random, &[BOARD, search.id, -3, i32::MIN, i32::MAX]),
            1 => search.id = pick(random, &[id, SEATS as i32, -1]),
            2 => search.lengths = any_lengths(search.lengths, random),
            _ => sides = sequences::sides(sides, random),
        }
    }
    (search, told_map(map, sides))
}

/// One of them is another.
fn any_lengths((world, way): (usize, usize), random: &mut Xorshift) -> (usize, usize) {
    let other = |length: usize, random: &mut Xorshift| {
        pick(random, &[0, 1, length.saturating_sub(1), length + 1])
    };
    match below(random, 2) {
        0 => (other(world, random), way),
        _ => (world, other(way, random)),
    }
}

/// Where libtw2 stops nothing is compared.
fn compare_search(
    numbers: &Numbers,
    map: &Map,
    search: &Search,
    tally: &mut Tally,
) -> Result<(), Differs> {
    let world = search.lent(numbers);
    let before = world.clone();
    let mut way = vec![UNWRITTEN; search.lengths.1];
    let (x, y) = search.place;
    let answer = buffers::search(search.role, &world, &lent(map), search.id, x, y, &mut way);
    same_numbers("world", &world, &before)?;
    let Ok((expected, left)) = catch_unwind(|| search.left(&world, map)) else {
        tally.stopped += 1;
        return Ok(());
    };
    same("answer", number(&answer), expected)?;
    same_numbers("way", &way, &left)?;
    match expected {
        0 => tally.ways[left[0] as usize] += 1,
        _ => tally.refused += 1,
    }
    Ok(())
}

impl Display for Tally {
    fn fmt(&self, formatter: &mut Formatter<'_>) -> Written {
        let Tally {
            ways: [none, one, two, three],
            refused,
            stopped,
        } = self;
        write!(
            formatter,
            "{one} ways of one step, {two} of two and {three} of three, {none} searches without \
             one, {refused} refused, {stopped} on which libtw2 stops"
        )
    }
}
