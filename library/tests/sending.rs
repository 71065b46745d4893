//! What goes to the screens through the safe types: a screen shows what the steps took,
//! and little is passed along.

mod common;

use common::{HOOK, NO_MAP, OPEN};
use ponguriena::Role::Referee;
use ponguriena::{
    CharacterCore, CharacterId, Map, Passed, PassedAlong, Records, Refusal, SEATS, Screen, Sender,
    Tuning, World,
};

const FLOOR: Map = Map {
    width: 4,
    height: 3,
    tiles: &[0, 0, 0, 0, 0, 0, 0, 0, 1, 1, 1, 1],
};

/// Its right column is deadly.
const SPIKED: Map = Map {
    width: 3,
    height: 3,
    tiles: &[0, 0, 2, 0, 0, 2, 0, 0, 2],
};

const GRAVITY: Tuning = Tuning::Gravity;
const HOLD: Tuning = Tuning::HookHold;

/// Behind the last.
const NO_TUNING: i32 = HOLD as i32 + 1;
const NO_SEAT: CharacterId = CharacterId(SEATS as u32);

const FIRST: CharacterId = CharacterId(1);
const SECOND: CharacterId = CharacterId(2);

fn ids<const N: usize>(ids: [u32; N]) -> Vec<CharacterId> {
    ids.map(CharacterId).to_vec()
}

/// Who is sent, and who is removed.
type Sent = (Vec<CharacterId>, Vec<CharacterId>);

/// A server and a screen.
struct Link {
    world: World,
    sender: Sender,
    screen: Screen,
}

impl Link {
    fn fresh() -> Link {
        Link {
            world: World::fresh(),
            sender: Sender::fresh(),
            screen: Screen::fresh(),
        }
    }

    /// The screen shows everybody who is there.
    fn step(&mut self, map: &Map) -> Result<Sent, Refusal> {
        let (records, passed) = self.sender.step(Referee, &mut self.world, map)?;
        self.screen.receive(map, passed.numbers())?;
        for (id, core) in &records {
            let shown = match records.removed().contains(&id) {
                true => Err(Refusal::Absent),
                false => Ok(core),
            };
            assert_eq!(self.screen.shown(id), shown);
        }
        Ok(sent(&records, &passed))
    }
}

/// The mark comes first, then messages with the records that were taken, then removals.
fn sent(records: &Records, passed: &PassedAlong) -> Sent {
    let mut things = passed.iter();
    assert_eq!(things.next(), Some(Passed::Mark));
    let (mut sent, mut removed) = (Vec::new(), Vec::new());
    for thing in things {
        match thing {
            Passed::Message { id, core, .. } => {
                assert!(removed.is_empty() && records.iter().any(|taken| taken == (id, core)));
                sent.push(id);
            }
            Passed::Removal { id } => removed.push(id),
            other => panic!("a step passes {other:?} along"),
        }
    }
    assert_eq!(records.removed(), removed);
    (sent, removed)
}

#[test]
fn who_stands_is_sent_every_150_steps() -> Result<(), Refusal> {
    let mut link = Link::fresh();
    link.world.join(Referee, &FLOOR, FIRST, 60, 49)?;
    for step in 1..=152 {
        let expected = if [1, 151].contains(&step) {
            &[FIRST][..]
        } else {
            &[]
        };
        assert_eq!(link.step(&FLOOR)?.0, expected, "step {step}");
    }
    Ok(())
}

/// One hooks another, who dies; one comes, is told something and goes.
#[test]
fn a_screen_shows_what_the_steps_took() -> Result<(), Refusal> {
    let mut link = Link::fresh();
    link.world.join(Referee, &SPIKED, FIRST, -80, 40)?;
    link.world.join(Referee, &SPIKED, SECOND, 30, 40)?;
    link.world.input(Referee, FIRST, HOOK)?;
    assert_eq!(link.step(&SPIKED)?, (ids([1, 2]), ids([])));
    let ninth = CharacterId(9);
    link.world.join(Referee, &SPIKED, ninth, 80, 40)?;
    assert_eq!(link.step(&SPIKED)?, (ids([1, 2, 9]), ids([9])));
    link.world.join(Referee, &SPIKED, ninth, -200, 40)?;
    assert_eq!(link.step(&SPIKED)?, (ids([1, 2, 9]), ids([])));
    let passed = link.sender.leave(Referee, &mut link.world, SECOND)?;
    link.screen.receive(&SPIKED, passed.numbers())?;
    assert_eq!(link.screen.shown(SECOND), Err(Refusal::Absent));
    // The hook has nobody any more.
    assert_eq!(link.step(&SPIKED)?, (ids([1]), ids([])));
    assert_eq!(link.step(&SPIKED)?, (ids([]), ids([])));
    Ok(())
}

/// A message and a removal of each by rising id: no call passes more along.
#[test]
fn everybody_is_sent_and_removed() -> Result<(), Refusal> {
    let mut link = Link::fresh();
    for (id, y) in CharacterId::all().rev().zip((0..).step_by(40)) {
        link.world.join(Referee, &SPIKED, id, 80, y)?;
    }
    let everybody = || CharacterId::all().collect();
    assert_eq!(link.step(&SPIKED)?, (everybody(), everybody()));
    assert_eq!(link.world, World::fresh());
    assert_eq!(link.sender, Sender::fresh());
    assert_eq!(link.screen, Screen::fresh());
    Ok(())
}

/// Also a leave of whom nothing was sent, and a tuning that changes nothing.
#[test]
fn leaves_and_tunings_are_passed_along() -> Result<(), Refusal> {
    let mut link = Link::fresh();
    let id = CharacterId(4);
    link.world.join(Referee, &OPEN, id, 40, 40)?;
    let leave = link.sender.leave(Referee, &mut link.world, id)?;
    assert_eq!(leave.iter().collect::<Vec<_>>(), [Passed::Leave { id }]);
    assert_eq!(leave.numbers(), [3, 4]);
    assert_eq!(link.world, World::fresh());
    assert_eq!(link.sender, Sender::fresh());
    for hundredths in [50, i32::MIN] {
        let tune = link
            .sender
            .tune(Referee, &mut link.world, GRAVITY, hundredths)?;
        let index = GRAVITY.into();
        let expected = [Passed::Tune { index, hundredths }];
        assert_eq!(tune.iter().collect::<Vec<_>>(), expected);
        assert_eq!(link.world.tuning(Referee, GRAVITY), Ok(hundredths));
        link.screen.receive(&OPEN, tune.numbers())?;
    }
    assert_eq!(link.screen.numbers()[GRAVITY as usize], i32::MIN);
    Ok(())
}

#[test]
fn the_input_of_the_step_is_sent() -> Result<(), Refusal> {
    let mut link = Link::fresh();
    link.world.join(Referee, &SPIKED, FIRST, 80, 40)?;
    link.world.input(Referee, FIRST, HOOK)?;
    let (_, passed) = link.sender.step(Referee, &mut link.world, &SPIKED)?;
    let input = |thing: Passed| match thing {
        Passed::Message { input, .. } => Some(input),
        _ => None,
    };
    assert_eq!(passed.iter().find_map(input), Some(HOOK));
    Ok(())
}

#[test]
fn refused_calls_change_nothing() -> Result<(), Refusal> {
    let mut link = Link::fresh();
    link.world.join(Referee, &OPEN, FIRST, 40, 40)?;
    link.step(&OPEN)?;
    let (world, sender) = (link.world.clone(), link.sender.clone());
    let (now, by) = (&mut link.world, &mut link.sender);
    let no_id = CharacterId(u32::MAX);
    assert_eq!(by.leave(Referee, now, NO_SEAT), Err(Refusal::BadId));
    assert_eq!(by.leave(Referee, now, no_id), Err(Refusal::BadId));
    assert_eq!(by.leave(Referee, now, SECOND), Err(Refusal::Absent));
    assert_eq!(by.tune(Referee, now, NO_TUNING, 0), Err(Refusal::BadTuning));
    assert_eq!(by.tune(Referee, now, HOLD, 0), Err(Refusal::BadHold));
    assert_eq!(by.tune(Referee, now, -1, 5), Err(Refusal::BadTuning));
    assert_eq!(by.step(Referee, now, &NO_MAP), Err(Refusal::BadMap));
    assert_eq!((link.world, link.sender), (world, sender));
    for id in [SEATS as u32, (1 << 31) - 1, 1 << 31, u32::MAX] {
        assert_eq!(link.screen.shown(CharacterId(id)), Err(Refusal::BadId));
    }
    assert_eq!(link.screen.shown(SECOND), Err(Refusal::Absent));
    Ok(())
}

/// The last thing is at fault, and nothing before it is taken either.
#[test]
fn a_screen_takes_all_or_nothing() -> Result<(), Refusal> {
    let message = Passed::Message {
        id: SECOND,
        core: CharacterCore::default(),
        input: HOOK,
    };
    let start = [Passed::Mark.numbers(), message.numbers()].concat();
    let mut screen = Screen::fresh();
    let no_seat = SEATS as i32;
    let faults: [(&[i32], Refusal); 7] = [
        (&[5], Refusal::BadLength),
        (&[-1], Refusal::BadLength),
        (&[3], Refusal::BadLength),
        (&[1, 2, 0, 0], Refusal::BadLength),
        (&[2, no_seat], Refusal::BadId),
        (&[3, -1], Refusal::BadId),
        (&[4, NO_TUNING, 0], Refusal::BadTuning),
    ];
    for (fault, refusal) in faults {
        let numbers = [&start, fault].concat();
        assert_eq!(screen.receive(&OPEN, &numbers), Err(refusal));
        assert_eq!(screen, Screen::fresh());
    }
    screen.receive(&OPEN, &[])?;
    assert_eq!(screen, Screen::fresh());
    screen.receive(&OPEN, &start)?;
    assert_eq!(screen.shown(SECOND), Ok(CharacterCore::default()));
    Ok(())
}

/// Its copies stay where they are.
#[test]
fn a_mark_without_a_map_moves_nobody() -> Result<(), Refusal> {
    let mut link = Link::fresh();
    link.world.join(Referee, &OPEN, FIRST, 40, 40)?;
    link.step(&OPEN)?;
    let before = link.screen.shown(FIRST);
    link.screen.receive(&NO_MAP, &Passed::Mark.numbers())?;
    assert_eq!(link.screen.shown(FIRST), before);
    link.screen.receive(&OPEN, &Passed::Mark.numbers())?;
    assert_ne!(link.screen.shown(FIRST), before);
    Ok(())
}

/// Though its numbers are those of the true record.
#[test]
fn where_there_is_no_copy_the_seat_is_sent() -> Result<(), Refusal> {
    let mut link = Link::fresh();
    let id = CharacterId(0);
    link.world.join(Referee, &FLOOR, id, 60, 49)?;
    assert_eq!(link.step(&FLOOR)?.0, [id]);
    assert_eq!(link.step(&FLOOR)?.0, []);
    let mut numbers = *link.sender.numbers();
    numbers[0] = 0;
    link.sender = Sender::from_numbers(numbers);
    assert_eq!(link.step(&FLOOR)?.0, [id]);
    assert_eq!(link.step(&FLOOR)?.0, []);
    Ok(())
}

#[test]
fn both_sides_go_on_from_their_numbers() -> Result<(), Refusal> {
    let mut link = Link::fresh();
    link.world.join(Referee, &OPEN, SECOND, 40, 40)?;
    link.world.input(Referee, SECOND, HOOK)?;
    link.step(&OPEN)?;
    let mut kept = Link {
        world: World::from_numbers(*link.world.numbers()),
        sender: Sender::from_numbers(*link.sender.numbers()),
        screen: Screen::from_numbers(*link.screen.numbers()),
    };
    for _ in 0..20 {
        assert_eq!(link.step(&OPEN)?, kept.step(&OPEN)?);
    }
    assert_eq!(link.sender, kept.sender);
    assert_eq!(link.screen, kept.screen);
    Ok(())
}
