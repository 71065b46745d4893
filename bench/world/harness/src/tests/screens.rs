//! What a screen makes of what is passed along, and both sides as numbers.

use super::sending::copy_numbers;
use super::{HOOK, NO_SEAT, no_map, open};
use crate::Refusal;
use crate::sending::{
    COPY_NUMBERS, MOST_STEPS, Passed, SCREEN_NUMBERS, Screen, SeatCopy, all_numbers,
    decoded_screen, decoded_sender, encoded_screen, encoded_sender,
};
use crate::tunings::{ORDINARY, TUNINGS};
use libtw2_gamenet::snap_obj::{CharacterCore, PlayerInput};
use original::{CORE_NUMBERS, core_of, input_of};
use tile_map::Map;

/// At (48, 48), at 10 a step.
fn falling() -> CharacterCore {
    core_of([0, 48, 48, 0, 2560, 0, 0, 0, -1, 0, 0, 0, 0, 0, 0])
}

/// It falls on only where its small world has not removed it.
#[test]
fn a_removed_copy_stays_until_a_message_or_a_leave() {
    let message = Passed::Message {
        id: 0,
        core: falling(),
        input: PlayerInput::default(),
    };
    let spikes = Map::from_rows(&["2"]);
    let mut screen = Screen::fresh();
    screen.receive(&spikes, message).expect("a seat");
    screen.receive(&spikes, Passed::Mark).expect("a mark");
    let removed = screen.copies[0];
    assert!(removed.removed && removed.core.y == 59 && removed.steps == 1);
    screen.receive(&open(), Passed::Mark).expect("a mark");
    let stayed = SeatCopy {
        steps: 2,
        ..removed
    };
    assert_eq!(copy_numbers(screen.copies[0]), copy_numbers(stayed));
    let mut other = screen.clone();
    other.receive(&open(), message).expect("a seat");
    other.receive(&open(), Passed::Mark).expect("a mark");
    assert!(!other.copies[0].removed && other.copies[0].core.y == 59);
    let leave = Passed::Leave { id: 0 };
    screen.receive(&open(), leave).expect("a seat");
    assert_eq!(copy_numbers(screen.copies[0]), [0; COPY_NUMBERS]);
}

/// Where there is no map, what was refused before is not refused with 9 any more.
#[test]
fn a_mark_without_a_map_counts_and_steps_nobody() {
    let mut screen = Screen::fresh();
    screen.copies[4] = SeatCopy {
        refused: true,
        steps: MOST_STEPS - 1,
        ..SeatCopy::sent(falling(), HOOK)
    };
    let counted = SeatCopy {
        refused: false,
        steps: MOST_STEPS,
        ..screen.copies[4]
    };
    for _ in 0..2 {
        screen.receive(&no_map(), Passed::Mark).expect("a mark");
        assert_eq!(copy_numbers(screen.copies[4]), copy_numbers(counted));
    }
}

/// What refused it before says nothing of the next step.
#[test]
fn a_refused_copy_steps_on() {
    for removed in [false, true] {
        let mut screen = Screen::fresh();
        screen.copies[4] = SeatCopy {
            refused: true,
            removed,
            ..SeatCopy::sent(falling(), PlayerInput::default())
        };
        screen.receive(&open(), Passed::Mark).expect("a mark");
        let copy = screen.copies[4];
        assert_eq!((copy.refused, copy.removed), (false, removed));
        assert_eq!(copy.core.y, if removed { 48 } else { 59 });
    }
}

#[test]
fn a_screen_refuses_what_names_nothing() {
    let mut screen = Screen::fresh();
    for id in [-1, NO_SEAT, i32::MIN, i32::MAX] {
        let core = core_of([0; CORE_NUMBERS]);
        let input = PlayerInput::default();
        for passed in [
            Passed::Message { id, core, input },
            Passed::Removal { id },
            Passed::Leave { id },
        ] {
            assert_eq!(screen.receive(&open(), passed), Err(Refusal::Id));
        }
        assert_eq!(screen.shown(id).err(), Some(Refusal::Id));
    }
    for index in [-1, TUNINGS as i32, i32::MIN, i32::MAX] {
        let hundredths = 5;
        let tune = Passed::Tune { index, hundredths };
        assert_eq!(screen.receive(&open(), tune), Err(Refusal::TuningIndex));
    }
    assert_eq!(encoded_screen(&screen), encoded_screen(&Screen::fresh()));
}

/// Whether the number there says yes or no.
fn is_flag(place: usize) -> bool {
    let within = place.checked_sub(TUNINGS).map(|place| place % COPY_NUMBERS);
    within.is_some_and(|place| [0, COPY_NUMBERS - 3, COPY_NUMBERS - 2].contains(&place))
}

/// Every number but 0 says yes.
#[test]
fn numbers_come_back() {
    let with_flags = |flag: i32| -> [i32; SCREEN_NUMBERS] {
        std::array::from_fn(|place| {
            if is_flag(place) {
                flag
            } else {
                place as i32 - 300
            }
        })
    };
    let numbers = with_flags(1);
    for flag in [1, -1, 2, i32::MIN, i32::MAX] {
        let screen = decoded_screen(&with_flags(flag));
        assert_eq!(encoded_screen(&screen), numbers);
    }
    let no_flags = with_flags(0);
    assert_eq!(encoded_screen(&decoded_screen(&no_flags)), no_flags);
    let sender = numbers[TUNINGS..].try_into().expect("a sender");
    assert_eq!(encoded_sender(&decoded_sender(sender)), *sender);
    let fresh = encoded_screen(&Screen::fresh());
    assert_eq!(fresh[..TUNINGS], ORDINARY);
    assert!(fresh[TUNINGS..].iter().all(|&number| number == 0));
}

/// One number less is none, one more is the same.
#[test]
fn what_is_passed_along_comes_back() {
    let each = [
        Passed::Mark,
        Passed::Message {
            id: 3,
            core: core_of(std::array::from_fn(|place| place as i32 + 10)),
            input: input_of([5, 6, 7, 8, 9]),
        },
        Passed::Removal { id: -4 },
        Passed::Leave { id: 5 },
        Passed::Tune {
            index: 6,
            hundredths: 7,
        },
    ];
    for (passed, count) in each.into_iter().zip([1, 22, 2, 2, 3]) {
        let mut numbers = passed.numbers();
        assert_eq!(numbers.len(), count);
        let less = Passed::first_of(&numbers[..count - 1]);
        assert!(less.is_none());
        numbers.push(77);
        let back = Passed::first_of(&numbers).expect("whole");
        assert_eq!(back.numbers(), numbers[..count]);
    }
    for kind in [-1, 5, i32::MAX, i32::MIN] {
        assert!(Passed::first_of(&[kind; 30]).is_none());
    }
    assert_eq!(
        all_numbers(&[Passed::Mark, Passed::Leave { id: 2 }]),
        [0, 3, 2]
    );
}
