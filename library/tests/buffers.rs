//! The calls on lent numbers: wrong lengths are refused, any numbers are taken, and
//! a seat where nobody is has zeros, as has what follows the ids of those removed.

#[path = "common/random.rs"]
mod random;

use ponguriena::buffers::{
    self, PUBLISHED_NUMBERS, RECORDS_NUMBERS, SEAT_NUMBERS, SEATS, TUNINGS, WORLD_NUMBERS,
};
use ponguriena::{CORE_NUMBERS, INPUT_NUMBERS, Map, PlayerInput, Refusal, Role};
use random::Random;

const OPEN: Map = Map {
    width: 2,
    height: 2,
    tiles: &[0, 0, 0, 1],
};

/// Its right column is deadly.
const SPIKED: Map = Map {
    tiles: &[0, 2, 0, 2],
    ..OPEN
};

const BUFFERS: usize = 500;
const STEPS: usize = 3;

const REFEREE: i32 = Role::Referee.number();

/// Nobody writes this.
const UNWRITTEN: i32 = -77;

const BAD_LENGTH: Result<(), Refusal> = Err(Refusal::BadLength);

/// Around the right length and far from it.
fn wrong_lengths(right: usize) -> [usize; 6] {
    [0, 1, right - 1, right + 1, 2 * right, 1000]
}

/// Also where other refusals fit: there is no such map, id or tuning.
#[test]
fn worlds_of_a_wrong_length() {
    let no_map = Map { width: 3, ..OPEN };
    for length in wrong_lengths(WORLD_NUMBERS) {
        let mut numbers = vec![UNWRITTEN; length];
        let world = &mut numbers[..];
        let mut records = [UNWRITTEN; RECORDS_NUMBERS];
        let mut removed = [UNWRITTEN; SEATS];
        let mut hundredths = UNWRITTEN;
        assert_eq!(buffers::fresh(world), BAD_LENGTH);
        assert_eq!(
            buffers::join(REFEREE, world, &no_map, -1, 1 << 30, 0),
            BAD_LENGTH
        );
        assert_eq!(buffers::leave(REFEREE, world, -1), BAD_LENGTH);
        let input = PlayerInput::default();
        assert_eq!(buffers::input(REFEREE, world, -1, input), BAD_LENGTH);
        assert_eq!(buffers::tune(REFEREE, world, -1, 0), BAD_LENGTH);
        let stepped = buffers::step(REFEREE, world, &no_map, &mut records, &mut removed);
        assert_eq!(stepped, Err(Refusal::BadLength));
        assert_eq!(
            buffers::record(REFEREE, world, -1, &mut records[..CORE_NUMBERS]),
            BAD_LENGTH
        );
        let input = &mut records[..INPUT_NUMBERS];
        assert_eq!(buffers::player_input(REFEREE, world, -1, input), BAD_LENGTH);
        assert_eq!(
            buffers::tuning(REFEREE, world, -1, &mut hundredths),
            BAD_LENGTH
        );
        assert_eq!(hundredths, UNWRITTEN);
        let mut mark = UNWRITTEN;
        assert_eq!(
            buffers::floor_mark(REFEREE, world, -1, &mut mark),
            BAD_LENGTH
        );
        assert_eq!(mark, UNWRITTEN);
        let all = numbers.iter().chain(&records).chain(&removed);
        assert!(all.into_iter().all(|&number| number == UNWRITTEN));
    }
}

type Reader<'a> = &'a mut dyn FnMut(&mut [i32]) -> Result<(), Refusal>;

#[test]
fn answers_of_a_wrong_length() {
    let mut fresh = [0; WORLD_NUMBERS];
    assert_eq!(buffers::fresh(&mut fresh), Ok(()));
    let (mut world, mut other_world) = (fresh, fresh);
    let (mut records, mut removed) = ([UNWRITTEN; RECORDS_NUMBERS], [UNWRITTEN; SEATS]);
    let readers: [(usize, Reader); 4] = [
        (RECORDS_NUMBERS, &mut |out| {
            buffers::step(REFEREE, &mut world, &OPEN, out, &mut removed).map(|_| ())
        }),
        (SEATS, &mut |out| {
            buffers::step(REFEREE, &mut other_world, &OPEN, &mut records, out).map(|_| ())
        }),
        (CORE_NUMBERS, &mut |out| {
            buffers::record(REFEREE, &fresh, -1, out)
        }),
        (INPUT_NUMBERS, &mut |out| {
            buffers::player_input(REFEREE, &fresh, -1, out)
        }),
    ];
    for (right, reader) in readers {
        for length in wrong_lengths(right) {
            let mut numbers = vec![UNWRITTEN; length];
            assert_eq!(reader(&mut numbers), BAD_LENGTH);
            assert!(numbers.iter().all(|&number| number == UNWRITTEN));
        }
    }
    assert_eq!([world, other_world], [fresh; 2]);
    let mut written = records.iter().chain(&removed);
    assert!(written.all(|&number| number == UNWRITTEN));
}

/// Those of who was removed come first; where nobody was there are zeros alone.
#[test]
fn zeros_follow_the_removed() {
    let mut world = [0; WORLD_NUMBERS];
    let mut records = [UNWRITTEN; RECORDS_NUMBERS];
    let mut removed = [UNWRITTEN; SEATS];
    assert_eq!(buffers::fresh(&mut world), Ok(()));
    for (id, x) in [(12, 50), (5, 90), (8, -90)] {
        assert_eq!(
            buffers::join(REFEREE, &mut world, &SPIKED, id, x, 16),
            Ok(())
        );
    }
    for ids in [&[5, 12][..], &[]] {
        let count = buffers::step(REFEREE, &mut world, &SPIKED, &mut records, &mut removed);
        assert_eq!(count, Ok(ids.len()));
        assert_eq!(removed[..ids.len()], *ids);
        assert!(removed[ids.len()..].iter().all(|&number| number == 0));
    }
}

/// In a fresh world, and after somebody has left.
#[test]
fn nobody_is_zeros() {
    let mut fresh = [UNWRITTEN; WORLD_NUMBERS];
    assert_eq!(buffers::fresh(&mut fresh), Ok(()));
    assert_eq!(fresh[TUNINGS..], [0; WORLD_NUMBERS - TUNINGS]);
    let mut world = fresh;
    assert_eq!(buffers::join(REFEREE, &mut world, &OPEN, 3, 16, 16), Ok(()));
    assert_ne!(world, fresh);
    assert_eq!(buffers::leave(REFEREE, &mut world, 3), Ok(()));
    assert_eq!(world, fresh);
}

/// Ids in hooks are not seats: the record comes back, and nobody's leave lets go of it.
#[test]
fn a_hook_may_hold_an_id_without_a_seat() {
    for held in [63, SEATS as i32, -2, i32::MIN, i32::MAX] {
        let mut world = [0; WORLD_NUMBERS];
        assert_eq!(buffers::fresh(&mut world), Ok(()));
        for id in [0, 63] {
            assert_eq!(
                buffers::join(REFEREE, &mut world, &OPEN, id, 16, 16),
                Ok(())
            );
        }
        let core = &mut world[TUNINGS + 1..][..CORE_NUMBERS];
        (core[8], core[9]) = (held, 5);
        let expected = core.to_vec();
        let mut record = [UNWRITTEN; CORE_NUMBERS];
        assert_eq!(buffers::record(REFEREE, &world, 0, &mut record), Ok(()));
        assert_eq!(record, expected[..]);
        assert_eq!(buffers::leave(REFEREE, &mut world, 63), Ok(()));
        assert_eq!(buffers::record(REFEREE, &world, 0, &mut record), Ok(()));
        let told = if held == 63 { (-1, -1) } else { (held, 5) };
        assert_eq!((record[8], record[9]), told);
    }
}

/// A call ends on any numbers, and changes nothing where it refuses. Who was removed has a
/// record and no seat.
#[test]
fn any_numbers_are_taken() {
    let mut random = Random::default();
    for _ in 0..BUFFERS {
        let mut world = [0; WORLD_NUMBERS].map(|_| random.any_number());
        let mut records = [0; RECORDS_NUMBERS];
        let mut removed = [0; SEATS];
        for _ in 0..STEPS {
            let before = (world, records, removed);
            let answer = buffers::step(REFEREE, &mut world, &SPIKED, &mut records, &mut removed);
            if answer.is_err() {
                assert_eq!(answer, Err(Refusal::TooFar));
                assert_eq!((world, records, removed), before);
            }
            for &id in &removed[..answer.unwrap_or(0)] {
                let seat = &world[TUNINGS + id as usize * SEAT_NUMBERS..][..SEAT_NUMBERS];
                assert_eq!(records[id as usize * PUBLISHED_NUMBERS], 1);
                assert_eq!(seat, [0; SEAT_NUMBERS]);
            }
            let id = (random.bits() % SEATS as u32) as i32;
            let input = [0; INPUT_NUMBERS].map(|_| random.any_number());
            let told = buffers::input(REFEREE, &mut world, id, PlayerInput::from_numbers(input));
            let mut read = [0; INPUT_NUMBERS];
            assert_eq!(buffers::player_input(REFEREE, &world, id, &mut read), told);
            assert_eq!(read, told.map_or([0; INPUT_NUMBERS], |()| input));
            let number = world[TUNINGS + (id as usize + 1) * SEAT_NUMBERS - 1];
            let mut mark = UNWRITTEN;
            assert_eq!(buffers::floor_mark(REFEREE, &world, id, &mut mark), told);
            assert_eq!(mark, told.map_or(UNWRITTEN, |()| i32::from(number != 0)));
        }
    }
}
