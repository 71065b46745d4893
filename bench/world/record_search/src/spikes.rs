//! Beside deadly tiles: the last step may end there, no step before it.

use crate::sequence::SearchSequence;
use harness::search::lists;
use harness::tunings::{AIR_CONTROL_ACCEL, AIR_CONTROL_SPEED, GRAVITY};
use record_calls::Sequence;
use record_calls::inputs::hook;
use tile_map::Map;

pub fn spike_sequences() -> Vec<SearchSequence> {
    vec![
        one_step_away(),
        two_steps_away(),
        over_a_gap(),
        on_them(),
        others_die(),
    ]
}

/// Its right column is deadly.
fn spiked() -> Map {
    Map::from_rows(&["0002", "0002"])
}

fn weightless(map: &Map) -> Sequence {
    Sequence::on(map).tuned(GRAVITY, 0)
}

fn row(xs: impl IntoIterator<Item = i32>, y: i32) -> impl Iterator<Item = (i32, i32)> {
    xs.into_iter().map(move |x| (x, y))
}

/// The first step to the right removes it.
fn one_step_away() -> SearchSequence {
    let start = weightless(&spiked()).join(4, 81, 20);
    SearchSequence::after(start).all(4, row(77..=92, 20))
}

/// The second does.
fn two_steps_away() -> SearchSequence {
    let start = weightless(&spiked()).join(4, 79, 20);
    SearchSequence::after(start).all(4, row(75..=92, 20))
}

/// Fast enough to end a step behind the deadly tile, or before it, or on it.
fn over_a_gap() -> SearchSequence {
    let start = weightless(&Map::from_rows(&["0000200000"]))
        .join(40, 100, 16)
        .tuned(AIR_CONTROL_SPEED, 4000)
        .tuned(AIR_CONTROL_ACCEL, 4000);
    let lists = lists();
    let some: Vec<_> = lists.into_iter().step_by(9).collect();
    SearchSequence::after(start).to_ends(40, &some)
}

/// Who joined there dies in the first step, whatever it does.
fn on_them() -> SearchSequence {
    let start = weightless(&spiked()).join(4, 100, 20);
    SearchSequence::after(start)
        .all(4, row([98, 99, 100, 101, 102], 20))
        .all(4, [(100, 8), (100, 7)])
}

/// Whom it holds, and who holds it, dies in the first step.
fn others_die() -> SearchSequence {
    let start = Sequence::on(&spiked())
        .join(2, 20, 20)
        .join(5, 76, 20)
        .join(7, -60, 20)
        .told(2, hook(9, 0))
        .told(7, hook(9, 0))
        .steps(1);
    let first: Vec<_> = lists().into_iter().take(6).collect();
    let mut sequence = SearchSequence::after(start);
    for id in [2, 5, 7] {
        sequence = sequence.to_ends(id, &first);
    }
    sequence
}
