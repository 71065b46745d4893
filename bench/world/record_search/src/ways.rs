//! Somebody alone, on the ground, in the air and at speed: ways of one, two and three steps.

use crate::sequence::SearchSequence;
use harness::search::{Buttons, lists};
use harness::tunings::{
    AIR_CONTROL_ACCEL, AIR_CONTROL_SPEED, AIR_JUMP_IMPULSE, GRAVITY, RAMP_CURVATURE, RAMP_RANGE,
    RAMP_START,
};
use libtw2_gamenet::snap_obj::PlayerInput;
use record_calls::Sequence;
use record_calls::inputs::{hook, walk};
use tile_map::Map;
use tile_map::maps::{floor, open, pillars, room};

/// One in so many of all lists.
const LISTS_EVERY: usize = 17;

pub fn way_sequences() -> Vec<SearchSequence> {
    let mut sequences: Vec<SearchSequence> = starts().into_iter().map(to_many_places).collect();
    sequences.extend([standing(), falling(), weightless(), stored_target()]);
    sequences.extend([corner(1300), corner(1200)]);
    sequences.extend([
        refused_when_walking(),
        refused_at_speed(),
        far_away(),
        tiny(),
    ]);
    sequences
}

/// All lists of one step, and some of the others.
fn some_lists() -> Vec<Vec<Buttons>> {
    let lists = lists();
    let (short, long) = lists.split_at(6);
    let some = long.iter().step_by(LISTS_EVERY);
    short.iter().chain(some).cloned().collect()
}

/// On the ground, in the air, against a wall, at speed, and with the jump in the air used.
fn starts() -> Vec<Sequence> {
    let jump = PlayerInput { jump: 1, ..walk(1) };
    vec![
        Sequence::on(&floor()).join(5, 100, 81),
        Sequence::on(&floor()).join(5, 100, 40).steps(2),
        Sequence::on(&room())
            .join(5, 49, 60)
            .told(5, walk(-1))
            .steps(4),
        Sequence::on(&floor())
            .join(5, 40, 81)
            .told(5, walk(1))
            .steps(9),
        Sequence::on(&pillars())
            .join(5, 40, 70)
            .told(5, jump)
            .steps(1)
            .told(5, walk(1))
            .steps(1)
            .told(5, jump)
            .steps(1),
    ]
}

fn to_many_places(start: Sequence) -> SearchSequence {
    SearchSequence::after(start).to_ends(5, &some_lists())
}

/// Where it stands now, and beside every place that it can reach.
fn standing() -> SearchSequence {
    let places = [
        (0, 0),
        (1, 0),
        (2, 0),
        (3, 0),
        (-2, 0),
        (6, 0),
        (12, 0),
        (13, 0),
        (0, -13),
        (0, 1),
    ];
    let start = Sequence::on(&floor()).join(0, 100, 81);
    let places = places.map(|(x, y)| (100 + x, 81 + y));
    SearchSequence::after(start).all(0, places)
}

/// Where it is now it cannot stay; there are lists of one step at least.
fn falling() -> SearchSequence {
    let start = Sequence::on(&open()).join(63, 10, 10).steps(3);
    let places = [
        (10, 13),
        (10, 15),
        (10, 18),
        (10, 21),
        (10, 1),
        (12, 15),
        (8, 15),
    ];
    SearchSequence::after(start).all(63, places)
}

/// Many lists lead to the same place; the first is told.
fn weightless() -> SearchSequence {
    let start = Sequence::on(&open())
        .join(1, 50, 50)
        .tuned(GRAVITY, 0)
        .tuned(AIR_CONTROL_ACCEL, 0);
    SearchSequence::after(start).all(1, [(50, 50), (50, 38), (50, 26), (50, 14), (50, 2)])
}

/// Left and up at once it stays where it is, at the corner of a solid tile; so it does with nothing
/// pressed, and direction comes before jump.
fn corner(speed: i32) -> SearchSequence {
    let start = Sequence::on(&Map::from_rows(&["100", "000", "000"]))
        .join(11, 46, 46)
        .tuned(GRAVITY, 0)
        .tuned(RAMP_CURVATURE, 100)
        .tuned(AIR_CONTROL_SPEED, speed)
        .tuned(AIR_CONTROL_ACCEL, speed)
        .tuned(AIR_JUMP_IMPULSE, speed);
    SearchSequence::after(start).all(11, [(46, 46), (33, 46), (46, 33), (59, 33)])
}

/// The hook is let go, and what it aims at makes no difference.
fn stored_target() -> SearchSequence {
    let start = Sequence::on(&floor())
        .join(2, 100, 60)
        .told(2, hook(-7, -40))
        .steps(2)
        .told(2, hook(30, 90));
    SearchSequence::after(start).to_ends(2, &some_lists())
}

/// A step with a direction is refused, so lists without one are all that count.
fn refused_when_walking() -> SearchSequence {
    let start = Sequence::on(&floor())
        .join(3, 100, 81)
        .tuned(RAMP_START, 0)
        .tuned(RAMP_RANGE, 1)
        .tuned(RAMP_CURVATURE, 1);
    SearchSequence::after(start).all(3, [(100, 81), (102, 81), (98, 81), (100, 68), (106, 81)])
}

/// The third step to the right is refused; a place is reached only on a way round.
fn refused_at_speed() -> SearchSequence {
    let start = Sequence::on(&floor())
        .join(3, 100, 81)
        .tuned(RAMP_START, 25_000)
        .tuned(RAMP_RANGE, 1)
        .tuned(RAMP_CURVATURE, 1);
    let places = [(102, 81), (106, 81), (112, 81), (104, 81), (108, 81)];
    SearchSequence::after(start).all(3, places)
}

/// At the ends of i32, and where a join may not be.
fn far_away() -> SearchSequence {
    let start = Sequence::on(&open()).join(3, -100_000, 100_000);
    let ends = [i32::MIN, i32::MAX, -100_000];
    let places = ends.into_iter().flat_map(|x| ends.map(|y| (x, y)));
    SearchSequence::after(start).all(3, places)
}

/// On one tile, faster than it is wide.
fn tiny() -> SearchSequence {
    let start = Sequence::on(&Map::from_rows(&["0"]))
        .join(9, 0, 0)
        .tuned(AIR_CONTROL_SPEED, 9000)
        .tuned(AIR_CONTROL_ACCEL, 9000);
    SearchSequence::after(start).to_ends(9, &some_lists()[..12])
}
