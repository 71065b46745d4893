//! What goes to the screens on lent numbers: wrong lengths are refused, what is refused
//! writes nothing, and any numbers are taken.

#[path = "common/random.rs"]
mod random;

use ponguriena::buffers::{self, RECORDS_NUMBERS, SEATS, TUNINGS, WORLD_NUMBERS};
use ponguriena::send_buffers::{
    self, COPY_NUMBERS, MESSAGE_NUMBERS, PASSED_NUMBERS, SCREEN_NUMBERS, SENDER_NUMBERS,
};
use ponguriena::{
    CORE_NUMBERS, CharacterCore, CharacterId, Map, Passed, PlayerInput, Refusal, Role,
};
use random::Random;

const OPEN: Map = Map {
    width: 2,
    height: 2,
    tiles: &[0, 0, 0, 1],
};

/// Its right column is deadly.
const SPIKED: Map = Map {
    tiles: &[0, 2, 0, 2],
    ..OPEN
};

const NO_MAP: Map = Map { width: 3, ..OPEN };

const REFEREE: i32 = Role::Referee.number();

/// Nobody writes this.
const UNWRITTEN: i32 = -77;

const NUMBERS: usize = 500;
const STEPS: usize = 3;

/// All that the calls of a sender are lent: the world, the sender, the records, who is
/// removed and what is passed along.
#[derive(Clone, Debug, Eq, PartialEq)]
struct Lent([Vec<i32>; 5]);

/// The right lengths.
const LENGTHS: [usize; 5] = [
    WORLD_NUMBERS,
    SENDER_NUMBERS,
    RECORDS_NUMBERS,
    SEATS,
    PASSED_NUMBERS,
];

type Call = fn(&mut Lent) -> Result<(), Refusal>;

impl Lent {
    fn unwritten(lengths: [usize; 5]) -> Lent {
        Lent(lengths.map(|length| vec![UNWRITTEN; length]))
    }

    fn fresh() -> Lent {
        let mut lent = Lent::unwritten(LENGTHS);
        assert_eq!(buffers::fresh(&mut lent.0[0]), Ok(()));
        assert_eq!(send_buffers::fresh_sender(&mut lent.0[1]), Ok(()));
        lent
    }

    fn leave(&mut self, id: i32) -> Result<usize, Refusal> {
        let [world, sender, _, _, passed] = &mut self.0;
        send_buffers::leave(REFEREE, world, sender, id, passed)
    }

    fn tune(&mut self, index: i32) -> Result<usize, Refusal> {
        let [world, sender, _, _, passed] = &mut self.0;
        send_buffers::tune(REFEREE, world, sender, index, 7, passed)
    }

    fn step(&mut self, map: &Map) -> Result<send_buffers::Counts, Refusal> {
        let [world, sender, records, removed, passed] = &mut self.0;
        send_buffers::step(REFEREE, world, sender, map, records, removed, passed)
    }
}

/// Around the right length and far from it.
fn wrong_lengths(right: usize) -> [usize; 6] {
    [0, 1, right - 1, right + 1, 2 * right, 1000]
}

/// Each that is lent to the call, also where other refusals fit: there is no such map, id
/// or tuning.
#[test]
fn every_wrong_length_is_refused() {
    let calls: [(&[usize], Call); 3] = [
        (&[0, 1, 4], |lent| lent.leave(-1).map(drop)),
        (&[0, 1, 4], |lent| lent.tune(-1).map(drop)),
        (&[0, 1, 2, 3, 4], |lent| lent.step(&NO_MAP).map(drop)),
    ];
    for (places, call) in calls {
        for &place in places {
            for length in wrong_lengths(LENGTHS[place]) {
                let mut lengths = LENGTHS;
                lengths[place] = length;
                let mut lent = Lent::unwritten(lengths);
                assert_eq!(call(&mut lent), Err(Refusal::BadLength));
                assert_eq!(lent, Lent::unwritten(lengths));
            }
        }
    }
}

#[test]
fn senders_and_screens_of_a_wrong_length() {
    for length in wrong_lengths(SENDER_NUMBERS) {
        let mut sender = vec![UNWRITTEN; length];
        let answer = send_buffers::fresh_sender(&mut sender);
        assert_eq!(answer, Err(Refusal::BadLength));
        assert!(sender.iter().all(|&number| number == UNWRITTEN));
    }
    for length in wrong_lengths(SCREEN_NUMBERS) {
        let mut screen = vec![UNWRITTEN; length];
        let mut record = [UNWRITTEN; CORE_NUMBERS];
        let answers = [
            send_buffers::fresh_screen(&mut screen),
            send_buffers::receive(&mut screen, &NO_MAP, &[2, -1]).map(drop),
            send_buffers::shown(&screen, -1, &mut record),
        ];
        assert_eq!(answers, [Err(Refusal::BadLength); 3]);
        assert!(
            screen
                .iter()
                .chain(&record)
                .all(|&number| number == UNWRITTEN)
        );
    }
    for length in wrong_lengths(CORE_NUMBERS) {
        let mut record = vec![UNWRITTEN; length];
        let answer = send_buffers::shown(&[0; SCREEN_NUMBERS], -1, &mut record);
        assert_eq!(answer, Err(Refusal::BadLength));
        assert!(record.iter().all(|&number| number == UNWRITTEN));
    }
}

#[test]
fn fresh_ones_have_no_copies() {
    let mut sender = [UNWRITTEN; SENDER_NUMBERS];
    assert_eq!(send_buffers::fresh_sender(&mut sender), Ok(()));
    assert_eq!(sender, [0; SENDER_NUMBERS]);
    let mut screen = [UNWRITTEN; SCREEN_NUMBERS];
    assert_eq!(send_buffers::fresh_screen(&mut screen), Ok(()));
    let mut world = [UNWRITTEN; WORLD_NUMBERS];
    assert_eq!(buffers::fresh(&mut world), Ok(()));
    assert_eq!(screen[..TUNINGS], world[..TUNINGS]);
    assert!(screen[TUNINGS..].iter().all(|&number| number == 0));
}

#[test]
fn a_refusal_writes_nothing() {
    let calls: [(Call, Refusal); 6] = [
        (|lent| lent.leave(-1).map(drop), Refusal::BadId),
        (|lent| lent.leave(SEATS as i32).map(drop), Refusal::BadId),
        (|lent| lent.leave(3).map(drop), Refusal::Absent),
        (|lent| lent.tune(-1).map(drop), Refusal::BadTuning),
        (
            |lent| lent.tune(TUNINGS as i32).map(drop),
            Refusal::BadTuning,
        ),
        (|lent| lent.step(&NO_MAP).map(drop), Refusal::BadMap),
    ];
    for (call, refusal) in calls {
        let mut lent = Lent::fresh();
        assert_eq!(call(&mut lent), Err(refusal));
        assert_eq!(lent, Lent::fresh());
    }
}

/// The numbers behind what is written stay.
#[test]
fn only_what_is_passed_along_is_written() {
    let first = 1 + MESSAGE_NUMBERS;
    let mut lent = Lent::fresh();
    assert_eq!(
        buffers::join(REFEREE, &mut lent.0[0], &SPIKED, 5, 50, 16),
        Ok(())
    );
    assert_eq!(lent.step(&OPEN).map(|counts| counts.passed), Ok(first));
    assert_eq!(lent.0[4][..3], [0, 1, 5]);
    let behind = lent.0[4][3..].to_vec();
    assert!(
        behind[first - 3..]
            .iter()
            .all(|&number| number == UNWRITTEN)
    );
    let counts = lent.step(&SPIKED).expect("short walks");
    assert_eq!((counts.passed, counts.removed), (3, 1));
    assert_eq!(lent.0[4][..3], [0, 2, 5]);
    assert_eq!(lent.tune(4), Ok(3));
    assert_eq!(lent.0[4][..3], [4, 4, 7]);
    assert_eq!(lent.0[4][3..], behind);
}

fn fresh_screen() -> [i32; SCREEN_NUMBERS] {
    let mut screen = [0; SCREEN_NUMBERS];
    assert_eq!(send_buffers::fresh_screen(&mut screen), Ok(()));
    screen
}

/// As many as it has, whatever follows; one less is no whole thing.
#[test]
fn the_first_thing_is_taken() {
    let message: Vec<i32> = (0..MESSAGE_NUMBERS as i32).map(|n| n.max(1)).collect();
    let (seat, tuning) = (SEATS as i32 - 1, TUNINGS as i32 - 1);
    for thing in [&[0][..], &message, &[2, seat], &[3, 0], &[4, tuning, -5]] {
        let mut screen = fresh_screen();
        let less = send_buffers::receive(&mut screen, &OPEN, &thing[..thing.len() - 1]);
        assert_eq!(less, Err(Refusal::BadLength));
        assert_eq!(screen, fresh_screen());
        let more = [thing, &[9, 9, 9]].concat();
        let used = send_buffers::receive(&mut screen, &OPEN, &more);
        assert_eq!(used, Ok(thing.len()));
    }
    for kind in [5, -1, i32::MIN, i32::MAX] {
        let mut screen = fresh_screen();
        let numbers = [kind; MESSAGE_NUMBERS];
        let answer = send_buffers::receive(&mut screen, &OPEN, &numbers);
        assert_eq!(answer, Err(Refusal::BadLength));
    }
}

/// Every kind that has an id or an index, where no seat and no tuning has it.
#[test]
fn things_that_name_nothing_are_refused() {
    for number in [-1, SEATS as i32, i32::MIN, i32::MAX] {
        let mut message = [0; MESSAGE_NUMBERS];
        (message[0], message[1]) = (1, number);
        for thing in [&message[..], &[2, number], &[3, number]] {
            let mut screen = fresh_screen();
            let answer = send_buffers::receive(&mut screen, &NO_MAP, thing);
            assert_eq!(answer, Err(Refusal::BadId));
            assert_eq!(screen, fresh_screen());
        }
    }
    for index in [-1, TUNINGS as i32, i32::MIN, i32::MAX] {
        let mut screen = fresh_screen();
        let answer = send_buffers::receive(&mut screen, &NO_MAP, &[4, index, 0]);
        assert_eq!(answer, Err(Refusal::BadTuning));
        assert_eq!(screen, fresh_screen());
    }
}

/// Every number but 0 is a flag that is set, and is written back as 1.
#[test]
fn any_flag_is_taken() {
    let mut screen = fresh_screen();
    let copy = &mut screen[TUNINGS..][..COPY_NUMBERS];
    (copy[0], copy[COPY_NUMBERS - 3]) = (-5, i32::MIN);
    let mut record = [UNWRITTEN; CORE_NUMBERS];
    assert_eq!(send_buffers::shown(&screen, 0, &mut record), Ok(()));
    assert_eq!(record, [0; CORE_NUMBERS]);
    assert_eq!(send_buffers::receive(&mut screen, &OPEN, &[0]), Ok(1));
    let copy = &screen[TUNINGS..][..COPY_NUMBERS];
    assert_eq!(copy[0], 1);
    assert_eq!(copy[COPY_NUMBERS - 3..], [1, 0, 1]);
}

/// A copy's record is taken as it is: below 0 it has held for longer than a hook holds. The
/// hook is retracted, and nothing is refused.
#[test]
fn a_hook_tick_below_zero_lets_go() {
    for hook_tick in [-1, -60, i32::MIN, 60, i32::MAX] {
        let core = CharacterCore {
            hooked_player: 3,
            hook_state: 5,
            hook_tick,
            ..CharacterCore::default()
        };
        let input = PlayerInput {
            hook: 1,
            ..PlayerInput::default()
        };
        let id = CharacterId(0);
        let message = Passed::Message { id, core, input };
        let mut screen = fresh_screen();
        for thing in [message, Passed::Mark] {
            let numbers = thing.numbers();
            let used = send_buffers::receive(&mut screen, &OPEN, &numbers);
            assert_eq!(used, Ok(numbers.len()));
        }
        let mut record = [UNWRITTEN; CORE_NUMBERS];
        assert_eq!(send_buffers::shown(&screen, 0, &mut record), Ok(()));
        let shown = CharacterCore::from_numbers(record);
        assert_eq!((shown.hooked_player, shown.hook_state), (-1, -1));
        let copy = &screen[TUNINGS..][..COPY_NUMBERS];
        assert_eq!(copy[COPY_NUMBERS - 3..], [0, 0, 1]);
    }
}

/// A step ends on any numbers, and changes nothing where it refuses. What it passes along
/// is a mark and whole things.
#[test]
fn any_numbers_are_a_sender() {
    let mut random = Random::default();
    for _ in 0..NUMBERS {
        let mut lent =
            Lent(LENGTHS.map(|length| (0..length).map(|_| random.any_number()).collect()));
        for _ in 0..STEPS {
            let before = lent.clone();
            match lent.step(&SPIKED) {
                Ok(counts) => {
                    let mut rest = &lent.0[4][..counts.passed];
                    assert_eq!(rest[0], 0);
                    while let Some((_, behind)) = Passed::first_of(rest) {
                        rest = behind;
                    }
                    assert!(rest.is_empty());
                    assert_eq!(lent.0[4][counts.passed..], before.0[4][counts.passed..]);
                }
                Err(refusal) => {
                    assert_eq!(refusal, Refusal::TooFar);
                    assert_eq!(lent, before);
                }
            }
        }
    }
}

#[test]
fn any_numbers_are_a_screen() {
    let mut random = Random::default();
    for _ in 0..NUMBERS {
        let mut screen = [0; SCREEN_NUMBERS].map(|_| random.any_number());
        for map in [OPEN, NO_MAP, SPIKED] {
            let tunings = screen[..TUNINGS].to_vec();
            assert_eq!(send_buffers::receive(&mut screen, &map, &[0]), Ok(1));
            assert_eq!(screen[..TUNINGS], tunings);
        }
        let message = [0; MESSAGE_NUMBERS].map(|_| random.any_number());
        let before = screen;
        if send_buffers::receive(&mut screen, &OPEN, &message).is_err() {
            assert_eq!(screen, before);
        }
    }
}
