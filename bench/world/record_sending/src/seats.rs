//! Ids up to the last seat, and every seat taken at once.

use harness::SEATS;
use harness::draw::FIRST_SEATS;
use record_calls::{Sequence, seat_sequences};
use tile_map::maps::floor;

pub fn all_seat_sequences() -> Vec<Sequence> {
    let mut sequences = vec![stand()];
    sequences.extend(seat_sequences());
    sequences
}

/// About the sixteenth and the last, each a step later than the one before: each is sent
/// again by a count of its own.
fn stand() -> Sequence {
    let beyond = FIRST_SEATS as i32;
    Sequence::on(&floor())
        .join(beyond - 1, 40, 81)
        .steps(1)
        .join(beyond, 140, 81)
        .steps(1)
        .join(SEATS as i32 - 1, 240, 81)
        .steps(152)
}
