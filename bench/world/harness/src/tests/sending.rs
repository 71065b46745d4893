//! When a seat is sent and when it is not.

use super::{HOOK, NO_SEAT, no_map, open, spiked};
use crate::sending::{
    COPY_NUMBERS, Link, Passed, SeatCopy, Sender, encoded_screen, encoded_sender,
};
use crate::tunings::{
    GRAVITY, GROUND_CONTROL_ACCEL, GROUND_CONTROL_SPEED, ORDINARY, RAMP_CURVATURE, RAMP_RANGE,
    RAMP_START, TUNINGS,
};
use crate::{Call, Refusal};
use libtw2_gamenet::snap_obj::PlayerInput;
use original::{CORE_NUMBERS, core_numbers, input_numbers};
use tile_map::Map;

/// The kind of each that is passed along, and of whom or of what.
type Told = Vec<(i32, i32)>;

const MARK: (i32, i32) = (0, 0);

const WALK: PlayerInput = PlayerInput {
    direction: 1,
    target_x: 0,
    target_y: 0,
    jump: 0,
    hook: 0,
};

fn floor() -> Map {
    Map::from_rows(&["00000001", "00000001", "00000001", "11111111"])
}

fn told(passed: &[Passed]) -> Told {
    let told = |passed: &Passed| match passed.numbers()[..] {
        [kind] => (kind, 0),
        [kind, whom, ..] => (kind, whom),
        [] => panic!("nothing has no numbers"),
    };
    passed.iter().map(told).collect()
}

/// What an accepted call passes along.
fn passed(link: &mut Link, map: &Map, call: Call) -> Told {
    told(&link.call(map, call).expect("accepted").passed)
}

fn step(link: &mut Link, map: &Map) -> Told {
    passed(link, map, Call::Step)
}

fn join(link: &mut Link, map: &Map, id: i32, x: i32, y: i32) {
    assert_eq!(passed(link, map, Call::Join { id, x, y }), []);
}

fn input(link: &mut Link, id: i32, input: PlayerInput) {
    assert_eq!(passed(link, &open(), Call::Input { id, input }), []);
}

fn tune(link: &mut Link, index: usize, hundredths: i32) {
    let index = index as i32;
    let told = passed(link, &open(), Call::Tune { index, hundredths });
    assert_eq!(told, [(4, index)]);
}

/// Of the screen.
fn shown(link: &Link, id: i32) -> Result<[i32; CORE_NUMBERS], Refusal> {
    link.screen.shown(id).map(core_numbers)
}

#[test]
fn the_first_step_after_a_join_is_sent() {
    let mut link = Link::fresh();
    join(&mut link, &open(), 7, 48, 48);
    join(&mut link, &open(), 2, -90, 48);
    assert_eq!(shown(&link, 7), Err(Refusal::Absent));
    assert_eq!(step(&mut link, &open()), [MARK, (1, 2), (1, 7)]);
    for _ in 0..20 {
        assert_eq!(step(&mut link, &open()), [MARK]);
        let record = link.world.slots[7].character.to_net();
        assert_eq!(shown(&link, 7), Ok(core_numbers(record)));
    }
    join(&mut link, &open(), 4, 300, 48);
    assert_eq!(step(&mut link, &open()), [MARK, (1, 4)]);
}

/// Those of so many accepted steps in which the one who stands is sent, the first being 1.
fn sent_in(link: &mut Link, steps: usize) -> Vec<usize> {
    let sent = |_: &usize| step(link, &floor()).len() > 1;
    (1..=steps).filter(sent).collect()
}

#[test]
fn who_stands_is_sent_every_150_steps() {
    let mut link = Link::fresh();
    join(&mut link, &floor(), 3, 60, 81);
    assert_eq!(sent_in(&mut link, 302), [1, 151, 301]);
}

/// A refused step does not count, another message does.
#[test]
fn accepted_steps_since_the_last_message_count() {
    let mut link = Link::fresh();
    join(&mut link, &floor(), 3, 60, 81);
    assert_eq!(sent_in(&mut link, 100), [1]);
    let refused = link.call(&no_map(), Call::Step).err();
    assert_eq!(refused, Some(Refusal::Map));
    let aim = PlayerInput {
        target_y: 9,
        ..PlayerInput::default()
    };
    input(&mut link, 3, aim);
    assert_eq!(sent_in(&mut link, 152), [1, 151]);
}

/// An input that shows is sent with the next step, one that does not is never.
#[test]
fn inputs_are_sent_where_they_show() {
    let mut link = Link::fresh();
    join(&mut link, &open(), 0, 48, 48);
    step(&mut link, &open());
    input(&mut link, 0, WALK);
    assert_eq!(step(&mut link, &open()), [MARK, (1, 0)]);
    let direction = i32::MAX;
    input(&mut link, 0, PlayerInput { direction, ..WALK });
    assert_eq!(step(&mut link, &open()), [MARK]);
    assert_eq!(link.screen.copies[0].input.direction, 1);
    input(&mut link, 0, PlayerInput::default());
    input(&mut link, 0, PlayerInput { direction, ..WALK });
    assert_eq!(step(&mut link, &open()), [MARK]);
}

/// It is the one that the step used, also where the step forgets it.
#[test]
fn a_message_has_the_input_of_the_step() {
    let mut link = Link::fresh();
    join(&mut link, &spiked(), 5, 80, 48);
    input(&mut link, 5, HOOK);
    let sent = link.call(&spiked(), Call::Step).expect("short walks");
    let [
        Passed::Mark,
        Passed::Message { input, .. },
        Passed::Removal { id: 5 },
    ] = sent.passed[..]
    else {
        panic!("{:?}", told(&sent.passed));
    };
    assert_eq!(input_numbers(input), input_numbers(HOOK));
}

/// One runs against the wall, and another holds it back.
fn held_back() -> Link {
    let mut link = Link::fresh();
    join(&mut link, &floor(), 0, 209, 81);
    join(&mut link, &floor(), 1, 109, 81);
    input(&mut link, 0, WALK);
    input(&mut link, 1, HOOK);
    for _ in 0..3 {
        step(&mut link, &floor());
    }
    link
}

/// Alone the runner would go too far; its true record does not change at all.
#[test]
fn a_copy_that_is_refused_is_sent() {
    let mut link = held_back();
    let before = shown(&link, 0);
    for (index, hundredths) in [
        (GROUND_CONTROL_SPEED, 2000),
        (GROUND_CONTROL_ACCEL, 2000),
        (RAMP_START, 0),
        (RAMP_RANGE, 7370),
        (RAMP_CURVATURE, 50),
    ] {
        tune(&mut link, index, hundredths);
    }
    let copy = link.sender.copies[0].stepped(0, &floor(), link.world.tunings);
    assert!(copy.refused && !copy.removed);
    assert_eq!(Ok(core_numbers(copy.core)), before);
    assert_eq!(step(&mut link, &floor()), [MARK, (1, 0), (1, 1)]);
    assert_eq!(shown(&link, 0), before);
    assert!(!link.sender.copies[0].refused && !link.screen.copies[0].refused);
}

#[test]
fn removals_follow_the_messages() {
    let mut link = Link::fresh();
    for (id, x) in [(9, 90), (3, 50), (4, -90)] {
        join(&mut link, &spiked(), id, x, 20);
    }
    let all = [MARK, (1, 3), (1, 4), (1, 9), (2, 3), (2, 9)];
    assert_eq!(step(&mut link, &spiked()), all);
    for id in [3, 9] {
        assert_eq!(shown(&link, id), Err(Refusal::Absent));
        let copy = link.sender.copies[id as usize];
        assert_eq!(copy_numbers(copy), copy_numbers(SeatCopy::none()));
    }
    assert_eq!(step(&mut link, &spiked()), [MARK]);
    join(&mut link, &spiked(), 3, -50, 20);
    assert_eq!(step(&mut link, &spiked()), [MARK, (1, 3)]);
}

/// Who walks onto spikes with nobody near is no surprise, but its removal is told.
#[test]
fn a_removal_is_told_without_a_message() {
    let mut link = Link::fresh();
    tune(&mut link, GRAVITY, 0);
    join(&mut link, &spiked(), 6, 30, 20);
    input(&mut link, 6, WALK);
    assert_eq!(step(&mut link, &spiked()), [MARK, (1, 6)]);
    let mut all = vec![];
    while all.is_empty() {
        all = step(&mut link, &spiked()).split_off(1);
    }
    assert_eq!(all, [(2, 6)]);
}

/// The record tells the grab, which is no more when the step ends.
#[test]
fn who_held_somebody_who_died_is_sent_again() {
    let mut link = Link::fresh();
    for (id, x) in [(1, 0), (2, 120)] {
        join(&mut link, &open(), id, x, 0);
    }
    input(&mut link, 1, HOOK);
    for _ in 0..3 {
        step(&mut link, &open());
    }
    let grab = [MARK, (1, 1), (1, 2), (2, 2)];
    assert_eq!(step(&mut link, &spiked()), grab);
    let record = shown(&link, 1).expect("kept");
    assert_eq!(record[8..10], [2, 5]);
    assert_eq!(step(&mut link, &open()), [MARK, (1, 1)]);
    let record = shown(&link, 1).expect("kept");
    assert_eq!(record[8..10], [-1, -1]);
}

/// Also where nothing of that seat was ever sent; nobody else's copy is touched.
#[test]
fn every_leave_is_passed_along() {
    let mut link = Link::fresh();
    let leave = |link: &mut Link, id| passed(link, &open(), Call::Leave { id });
    for (id, x) in [(1, 0), (2, 120)] {
        join(&mut link, &open(), id, x, 0);
    }
    input(&mut link, 1, HOOK);
    step(&mut link, &open());
    step(&mut link, &open());
    join(&mut link, &open(), 3, -90, 0);
    assert_eq!(leave(&mut link, 3), [(3, 3)]);
    let before = encoded_sender(&link.sender);
    assert_eq!(leave(&mut link, 2), [(3, 2)]);
    let copies = [1, 2].map(|id| link.sender.copies[id].kept);
    assert_eq!(copies, [true, false]);
    let after = encoded_sender(&link.sender);
    assert_eq!(after[..2 * COPY_NUMBERS], before[..2 * COPY_NUMBERS]);
    // The hold that the leave ended is a surprise.
    assert_eq!(step(&mut link, &open()), [MARK, (1, 1)]);
}

#[test]
fn every_tuning_is_passed_along() {
    let mut link = Link::fresh();
    join(&mut link, &open(), 0, 48, 48);
    step(&mut link, &open());
    for hundredths in [ORDINARY[GRAVITY], 7, i32::MIN, i32::MAX, 0] {
        tune(&mut link, GRAVITY, hundredths);
        assert_eq!(link.screen.tunings, link.world.tunings);
    }
    assert_eq!(step(&mut link, &open()), [MARK]);
}

#[test]
fn a_refused_call_passes_nothing_along() {
    let mut link = held_back();
    let before = (encoded_sender(&link.sender), encoded_screen(&link.screen));
    for (map, call) in [
        (open(), Call::Leave { id: NO_SEAT }),
        (open(), Call::Leave { id: 5 }),
        (open(), Call::Input { id: 5, input: WALK }),
        (no_map(), Call::Step),
        (
            open(),
            Call::Join {
                id: 0,
                x: 48,
                y: 48,
            },
        ),
        (
            open(),
            Call::Tune {
                index: TUNINGS as i32,
                hundredths: 1,
            },
        ),
    ] {
        assert!(link.call(&map, call).is_err());
        let after = (encoded_sender(&link.sender), encoded_screen(&link.screen));
        assert_eq!(after, before);
    }
}

pub fn copy_numbers(copy: SeatCopy) -> Vec<i32> {
    let mut sender = Sender::fresh();
    sender.copies[0] = copy;
    encoded_sender(&sender)[..COPY_NUMBERS].to_vec()
}

/// Though its numbers would be those of the true record.
#[test]
fn where_there_is_no_copy_all_is_sent() {
    let mut link = Link::fresh();
    join(&mut link, &floor(), 3, 60, 81);
    step(&mut link, &floor());
    link.sender.copies[3].kept = false;
    let before = link.sender.copies[3];
    let stepped = before.stepped(3, &floor(), ORDINARY);
    assert_eq!(copy_numbers(stepped), copy_numbers(before));
    assert_eq!(step(&mut link, &floor()), [MARK, (1, 3)]);
    assert_eq!(step(&mut link, &floor()), [MARK]);
}
