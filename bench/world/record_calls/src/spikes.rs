//! Deadly tiles: who ends a step on them, who does not, and who holds whom then.

use crate::inputs::{hook, nothing, walk};
use crate::sequence::Sequence;
use harness::Call;
use harness::draw::FIRST_SEATS;
use harness::tunings::{
    AIR_CONTROL_ACCEL, AIR_CONTROL_SPEED, GRAVITY, HOOK_DRAG_ACCEL, HOOK_FIRE_SPEED, HOOK_LENGTH,
    PLAYER_COLLISION,
};
use libtw2_gamenet::snap_obj::PlayerInput;
use tile_map::Map;

/// Player collision as it is ordinarily, and off.
const COLLISIONS: [i32; 2] = [100, 0];

/// Each tile at the rim is deadly in one of the two.
const RIMS: [[&str; 3]; 2] = [["200", "002", "020"], ["022", "200", "202"]];

pub fn spike_sequences() -> Vec<Sequence> {
    let mut sequences = vec![joins_there(), joins_again(), refused()];
    for collision in COLLISIONS {
        sequences.push(corners_beside_walls(collision));
        sequences.push(held(collision));
        sequences.push(shoved(collision));
    }
    sequences.extend([corners_in_the_open(), in_the_way(), pit()]);
    sequences.extend([dragged(), holders(), some_of_many(), everybody()]);
    sequences.extend(RIMS.map(outside));
    sequences
}

/// One deadly tile in the open.
fn field() -> Map {
    Map::from_rows(&["000", "020", "000"])
}

/// In each corner of a room.
fn spiked_room() -> Map {
    Map::from_rows(&[
        "11111111", "12000021", "10000001", "10000001", "10000001", "10000001", "12000021",
        "11111111",
    ])
}

/// From top to bottom, with a wall behind.
fn fence() -> Map {
    Map::from_rows(&["00020001", "00020001", "00020001", "00020001"])
}

/// In the ground, which begins at y = 96, and at the right end above it.
fn pitted_floor() -> Map {
    let air = "0000000000000000";
    Map::from_rows(&[air, air, "0000000000000002", "1111122221111111"])
}

fn joined(sequence: Sequence, places: impl IntoIterator<Item = (i32, i32, i32)>) -> Sequence {
    let join = |sequence: Sequence, (id, x, y)| sequence.join(id, x, y);
    places.into_iter().fold(sequence, join)
}

/// Present until the step, and absent from then on.
fn joins_there() -> Sequence {
    Sequence::on(&field())
        .join(5, 48, 48)
        .join(5, 10, 10)
        .told(5, walk(1))
        .steps(1)
        .told(5, walk(1))
        .leave(5)
        .steps(1)
}

/// On spikes again, and beside them; what it was told and where it stood is forgotten.
fn joins_again() -> Sequence {
    let input = PlayerInput { hook: 1, ..walk(1) };
    Sequence::on(&pitted_floor())
        .join(0, 140, 81)
        .told(0, input)
        .steps(7)
        .join(0, 200, 90)
        .steps(1)
        .join(0, 60, 81)
        .steps(2)
}

/// Somebody's hook would fly too far, or the sides are not the map's.
fn refused() -> Sequence {
    let mut sequence = Sequence::on(&field())
        .join(3, 40, 50)
        .join(12, 200, 50)
        .told(12, hook(0, -9))
        .tuned(HOOK_LENGTH, i32::MAX)
        .tuned(HOOK_FIRE_SPEED, i32::MAX)
        .steps(1);
    sequence.with_sides((3, 4), Call::Step);
    sequence.told(12, nothing()).steps(1)
}

/// At the last unit that kills, then one unit farther.
fn corners_beside_walls(collision: i32) -> Sequence {
    let nearest = [(0, 77, 77), (5, 178, 77), (10, 77, 178), (15, 178, 178)];
    let farther = [(0, 78, 77), (5, 178, 78), (10, 77, 177), (15, 177, 178)];
    let start = Sequence::on(&spiked_room())
        .tuned(GRAVITY, 0)
        .tuned(PLAYER_COLLISION, collision);
    joined(joined(start, nearest).steps(1), farther).steps(1)
}

/// The same; in the end all fall, one of them onto the spikes and one past them.
fn corners_in_the_open() -> Sequence {
    let nearest = [(1, 77, 77), (2, 18, 77), (3, 77, 18), (4, 18, 18)];
    let farther = [(4, 77, 78), (3, 17, 77), (2, 78, 18), (1, 18, 17)];
    let start = Sequence::on(&field()).tuned(GRAVITY, 0);
    joined(joined(start, nearest).steps(1), farther)
        .steps(1)
        .tuned(GRAVITY, 10_000)
        .join(9, 48, -20)
        .steps(1)
}

/// By a lower and a higher id, and holds another. The button must be let go before the
/// holders fire again.
fn held(collision: i32) -> Sequence {
    let (lower, dying, higher, another) = (2, 7, 11, 14);
    Sequence::on(&field())
        .tuned(PLAYER_COLLISION, collision)
        .join(lower, -20, 48)
        .join(dying, 77, 48)
        .join(higher, 110, 48)
        .join(another, 77, -50)
        .told(lower, hook(9, 0))
        .told(dying, hook(0, -9))
        .told(higher, hook(-9, 0))
        .steps(2)
        .join(dying, 77, 90)
        .told(lower, nothing())
        .steps(1)
        .told(lower, hook(97, 40))
        .steps(2)
}

/// One who stands is pushed onto the spikes by one who walks, or lets it through.
fn shoved(collision: i32) -> Sequence {
    Sequence::on(&pitted_floor())
        .tuned(PLAYER_COLLISION, collision)
        .join(1, 462, 81)
        .join(4, 420, 81)
        .told(4, walk(1))
        .steps(7)
}

/// Who dies is in the way of those who move after it, in this step alone.
fn in_the_way() -> Sequence {
    Sequence::on(&fence())
        .tuned(AIR_CONTROL_SPEED, 10_000)
        .tuned(AIR_CONTROL_ACCEL, 4000)
        .join(1, 140, 60)
        .join(4, 185, 60)
        .told(4, walk(-1))
        .steps(2)
}

/// A hook flies through spikes to a wall, another to somebody: one drags itself onto
/// them, one another.
fn dragged() -> Sequence {
    Sequence::on(&fence())
        .tuned(HOOK_DRAG_ACCEL, 1500)
        .join(1, 76, 10)
        .join(3, 50, 100)
        .join(6, 160, 100)
        .told(1, hook(9, 0))
        .told(3, hook(9, 0))
        .steps(5)
}

/// One dies in the step in which it grabs; two who hold one another die together.
fn holders() -> Sequence {
    Sequence::on(&fence())
        .join(4, 110, 20)
        .join(8, 30, 20)
        .told(4, hook(-9, 0))
        .steps(2)
        .join(4, 112, 100)
        .join(9, 112, 20)
        .told(4, hook(0, -9))
        .told(9, hook(0, 9))
        .steps(2)
}

/// The last id among them, between those who stay.
fn some_of_many() -> Sequence {
    let places = (0..6).map(|turn| (3 * turn, 20 + 90 * (turn % 2), 40 * turn));
    joined(Sequence::on(&fence()), places).steps(2)
}

/// Of the first seats, on a map of one tile, up to the limits of a join. One comes back.
fn everybody() -> Sequence {
    let far = [(0, 5000, 5000), (1, -100_000, 100_000), (2, 7, -100_000)];
    let near = (3..FIRST_SEATS as i32).map(|id| (id, 40 * id, 30 * (id % 3)));
    joined(
        Sequence::on(&Map::from_rows(&["2"])),
        far.into_iter().chain(near),
    )
    .told(6, hook(9, 0))
    .steps(2)
    .join(15, 7, 7)
    .steps(1)
}

/// All around the map; a point out there is clamped to the rim.
fn outside(rows: [&str; 3]) -> Sequence {
    let along = [-500, 48, 600];
    let places = along.into_iter().flat_map(|y| along.map(|x| (x, y)));
    let places = (1..).zip(places).map(|(id, (x, y))| (id, x, y));
    let start = Sequence::on(&Map::from_rows(&rows)).tuned(GRAVITY, 0);
    joined(start, places).steps(1)
}

/// One walks off the ground, one stands at its edge, one is above the spikes alone and
/// falls. The last stands on the ground and walks into spikes beside it.
fn pit() -> Sequence {
    Sequence::on(&pitted_floor())
        .join(2, 130, 81)
        .join(9, 276, 81)
        .join(10, 224, 77)
        .join(12, 440, 81)
        .told(2, walk(1))
        .told(12, walk(1))
        .steps(8)
}
