//! Deadly tiles: who is removed, whose copy is, and who is not though its copy is.

use harness::draw::FIRST_SEATS;
use harness::tunings::{AIR_CONTROL_ACCEL, AIR_CONTROL_SPEED, GRAVITY};
use libtw2_gamenet::snap_obj::PlayerInput;
use record_calls::Sequence;
use record_calls::inputs::{hook, nothing, walk};
use tile_map::Map;

pub fn spike_sequences() -> Vec<Sequence> {
    let mut sequences = vec![joins_there(), walks_there(), turns_round(), pushed()];
    sequences.extend([(2, 8), (8, 2)].map(stopped_before));
    for (holder, held) in [(2, 7), (11, 7)] {
        sequences.push(held_dies(holder, held));
        sequences.push(holder_dies(holder, held));
    }
    sequences.push(everybody());
    sequences
}

/// The ground begins at y = 96, and spikes at its right end above it at x = 480.
fn floor_with_spikes() -> Map {
    let air = "0000000000000000";
    Map::from_rows(&[air, air, "0000000000000002", "1111111111111111"])
}

/// From top to bottom, from x = 96 to 127.
fn fence() -> Map {
    Map::from_rows(&["00020000", "00020000", "00020000", "11111111"])
}

/// Sent and removed in the same step, again and again.
fn joins_there() -> Sequence {
    let there = Sequence::on(&fence())
        .join(5, 110, 40)
        .told(5, walk(1))
        .join(9, 30, 81)
        .steps(2)
        .join(5, 112, 40)
        .steps(1);
    there.join(5, 200, 81).steps(3).leave(5).steps(1)
}

/// Alone, as its copy does; only the removal is passed along.
fn walks_there() -> Sequence {
    Sequence::on(&floor_with_spikes())
        .join(3, 425, 81)
        .told(3, walk(1))
        .steps(9)
        .join(3, 400, 81)
        .steps(2)
}

/// The copy goes on, and its small world removes it.
fn turns_round() -> Sequence {
    Sequence::on(&floor_with_spikes())
        .join(3, 457, 81)
        .told(3, walk(1))
        .steps(2)
        .told(3, walk(-1))
        .steps(4)
}

/// So fast that the copy is on the spikes at once; somebody else stands in the way.
fn stopped_before((runner, other): (i32, i32)) -> Sequence {
    Sequence::on(&fence())
        .tuned(GRAVITY, 0)
        .join(runner, 20, 48)
        .join(other, 70, 48)
        .told(runner, walk(1))
        .steps(1)
        .tuned(AIR_CONTROL_SPEED, 10_000)
        .tuned(AIR_CONTROL_ACCEL, 6000)
        .steps(1)
        .told(runner, nothing())
        .steps(2)
}

/// The copy of who is pushed onto the spikes stays where it is.
fn pushed() -> Sequence {
    Sequence::on(&floor_with_spikes())
        .join(1, 465, 81)
        .join(4, 424, 81)
        .join(6, 380, 81)
        .told(4, walk(1))
        .steps(7)
}

/// The record tells the grab, and the next one that the hook is retracted.
fn held_dies(holder: i32, held: i32) -> Sequence {
    Sequence::on(&fence())
        .tuned(GRAVITY, 0)
        .join(holder, 20, 48)
        .join(held, 80, 48)
        .told(holder, hook(9, 0))
        .told(held, walk(1))
        .steps(4)
        .join(held, 70, 48)
        .steps(2)
        .told(holder, nothing())
        .steps(2)
}

fn holder_dies(holder: i32, held: i32) -> Sequence {
    let input = PlayerInput {
        direction: 1,
        ..hook(-9, 0)
    };
    Sequence::on(&fence())
        .tuned(GRAVITY, 0)
        .join(holder, 72, 48)
        .join(held, 10, 48)
        .told(holder, input)
        .steps(6)
}

/// Of the first seats, on a map of one tile: a message and a removal of each.
fn everybody() -> Sequence {
    let mut sequence = Sequence::on(&Map::from_rows(&["2"]));
    for id in 0..FIRST_SEATS as i32 {
        sequence = sequence.join(id, 40 * id, 30 * (id % 3));
    }
    sequence
        .told(6, hook(9, 0))
        .steps(2)
        .join(15, 7, 7)
        .steps(2)
}
