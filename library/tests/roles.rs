//! Who may make which call: the safe types for each role, and the calls on lent numbers for
//! every number that is named as one.

mod common;

use common::{HOOK, NO_MAP, OPEN};
use ponguriena::buffers::{self, RECORDS_NUMBERS, SEATS, WAY_NUMBERS, WORLD_NUMBERS};
use ponguriena::send_buffers::{self, PASSED_NUMBERS, SENDER_NUMBERS};
use ponguriena::{
    CORE_NUMBERS, CharacterId, INPUT_NUMBERS, Map, PlayerInput, Refusal, Role, Sender, World,
};

const REFEREE: i32 = Role::Referee.number();
const BOARD: i32 = Role::Board.number();

/// Ids of those who are present or not, and some that no seat has.
const IDS: [u32; 5] = [1, 9, 64, 255, LAST_POSITIVE];

/// Ids beyond i32.
const LARGE_IDS: [u32; 3] = [LAST_POSITIVE + 1, u32::MAX - 1, u32::MAX];

const LAST_POSITIVE: u32 = u32::MAX >> 1;

/// Numbers that no role has.
const NO_ROLES: [i32; 4] = [-3, -64, i32::MIN, i32::MIN + 1];

/// Nobody writes this.
const UNWRITTEN: i32 = -77;

const FIRST: CharacterId = CharacterId(1);
const SECOND: CharacterId = CharacterId(2);

/// Seats and boards.
fn all_but_the_referee() -> impl Iterator<Item = Role> {
    let ids = IDS.into_iter().chain(LARGE_IDS).map(CharacterId);
    ids.map(Role::Seat).chain([Role::Board])
}

/// The first holds the second.
fn holding() -> Result<World, Refusal> {
    let mut world = World::fresh();
    for (id, x) in [(FIRST, 0), (SECOND, 120)] {
        world.join(Role::Referee, &OPEN, id, x, 0)?;
    }
    world.input(Role::Referee, FIRST, HOOK)?;
    for _ in 0..2 {
        world.step(Role::Referee, &OPEN)?;
    }
    Ok(world)
}

/// The answers to everything but an input and the reads of a board. The number is that of an id
/// and of a tuning.
fn answers(world: &mut World, role: Role, map: &Map, number: i32) -> [Result<(), Refusal>; 7] {
    let id = CharacterId(number.cast_unsigned());
    [
        world.join(role, map, id, 20, 20),
        world.leave(role, id),
        world.tune(role, number, 7),
        world.step(role, map).map(drop),
        world.player_input(role, id).map(drop),
        world.tuning(role, number).map(drop),
        world.search(role, map, id, 20, 20).map(drop),
    ]
}

/// Also where it would be refused for another reason: the map, the id, the index.
#[test]
fn seats_and_boards_may_not() -> Result<(), Refusal> {
    let mut world = holding()?;
    let before = world.clone();
    for role in all_but_the_referee() {
        for number in [1, 2, 9, 64, -1] {
            for map in [OPEN, NO_MAP] {
                let answers = answers(&mut world, role, &map, number);
                assert_eq!(answers, [Err(Refusal::NotAllowed); 7]);
            }
        }
    }
    assert_eq!(world, before);
    Ok(())
}

#[test]
fn a_seat_gives_its_own_input_alone() -> Result<(), Refusal> {
    let mut world = holding()?;
    let before = world.clone();
    for own in IDS.map(CharacterId) {
        let role = Role::Seat(own);
        for id in [1, 2, 9, 64].map(CharacterId) {
            let answer = world.input(role, id, PlayerInput::default());
            assert_eq!(answer == Err(Refusal::NotAllowed), id != own);
            assert_eq!(world.record(role, id), Err(Refusal::NotAllowed));
            assert_eq!(world.floor_mark(role, id), Err(Refusal::NotAllowed));
        }
    }
    let mut expected = before;
    expected.input(Role::Referee, FIRST, PlayerInput::default())?;
    assert_eq!(world, expected);
    let own_input = |id| world.clone().input(Role::Seat(id), id, HOOK);
    for (id, refusal) in [
        (9, Refusal::Absent),
        (64, Refusal::BadId),
        (255, Refusal::BadId),
        (LAST_POSITIVE, Refusal::BadId),
    ] {
        assert_eq!(own_input(CharacterId(id)), Err(refusal));
    }
    for id in LARGE_IDS.map(CharacterId) {
        assert_eq!(own_input(id), Err(Refusal::BadId));
    }
    Ok(())
}

/// For any two ids, also where both are beyond i32.
#[test]
fn a_seat_gives_no_other_input() -> Result<(), Refusal> {
    let mut world = holding()?;
    let before = world.clone();
    let ids = IDS.into_iter().chain(LARGE_IDS).chain([3_000_000_000]);
    for own in ids.clone().map(CharacterId) {
        for id in ids.clone().map(CharacterId).filter(|&id| id != own) {
            let answer = world.input(Role::Seat(own), id, HOOK);
            assert_eq!(answer, Err(Refusal::NotAllowed), "{own} for {id}");
        }
    }
    assert_eq!(world, before);
    Ok(())
}

/// As the referee reads them.
#[test]
fn a_board_reads_records_and_floor_marks() -> Result<(), Refusal> {
    let mut world = holding()?;
    for id in [1, 2, 9, 63, 64, u32::MAX, u32::MAX - 1].map(CharacterId) {
        let record = world.record(Role::Board, id);
        assert_eq!(record, world.record(Role::Referee, id));
        assert_eq!(record.is_ok(), id == FIRST || id == SECOND);
        let mark = world.floor_mark(Role::Board, id);
        assert_eq!(mark, world.floor_mark(Role::Referee, id));
        let answer = world.input(Role::Board, id, HOOK);
        assert_eq!(answer, Err(Refusal::NotAllowed));
    }
    Ok(())
}

/// Not that of the last step: the record tells a leave at once, and one that is refused has
/// let nobody go.
#[test]
fn a_record_is_of_the_seat_as_it_stands() -> Result<(), Refusal> {
    let mut world = holding()?;
    for role in [Role::Seat(SECOND), Role::Board] {
        assert_eq!(world.leave(role, SECOND), Err(Refusal::NotAllowed));
        assert_eq!(world.record(Role::Board, FIRST)?.hooked_player, 2);
    }
    world.leave(Role::Referee, SECOND)?;
    let core = world.record(Role::Board, FIRST)?;
    assert_eq!((core.hook_state, core.hooked_player), (-1, -1));
    Ok(())
}

#[test]
fn a_sender_calls_as_the_referee() -> Result<(), Refusal> {
    let (mut world, mut sender) = (holding()?, Sender::fresh());
    sender.step(Role::Referee, &mut world, &OPEN)?;
    let before = (world.clone(), sender.clone());
    for role in all_but_the_referee() {
        for number in [1_u8, 9, 64] {
            let answers = [
                sender.leave(role, &mut world, number.into()).map(drop),
                sender.tune(role, &mut world, number, 7).map(drop),
                sender.step(role, &mut world, &NO_MAP).map(drop),
                sender.step(role, &mut world, &OPEN).map(drop),
            ];
            assert_eq!(answers, [Err(Refusal::NotAllowed); 4]);
        }
    }
    assert_eq!((world, sender), before);
    Ok(())
}

/// All that is lent: the world, the sender, and what is written.
#[derive(Clone, Debug, Eq, PartialEq)]
struct Lent {
    world: Vec<i32>,
    sender: Vec<i32>,
    written: [Vec<i32>; 6],
    number: i32,
}

impl Lent {
    /// Each so much shorter than it should be.
    fn shorter(by: usize) -> Lent {
        let unwritten = |length: usize| vec![UNWRITTEN; length - by];
        let lengths = [
            RECORDS_NUMBERS,
            SEATS,
            CORE_NUMBERS,
            INPUT_NUMBERS,
            WAY_NUMBERS,
            PASSED_NUMBERS,
        ];
        Lent {
            world: unwritten(WORLD_NUMBERS),
            sender: unwritten(SENDER_NUMBERS),
            written: lengths.map(unwritten),
            number: UNWRITTEN,
        }
    }

    /// Every call but an input, and every read but those of a board.
    fn answers(&mut self, role: i32, map: &Map, id: i32) -> [Result<(), Refusal>; 10] {
        let (world, sender) = (&mut self.world, &mut self.sender);
        let [records, removed, _, input, way, passed] = &mut self.written;
        [
            buffers::join(role, world, map, id, 1 << 30, 0),
            buffers::leave(role, world, id),
            buffers::tune(role, world, id, 7),
            buffers::step(role, world, map, records, removed).map(drop),
            buffers::player_input(role, world, id, input),
            buffers::tuning(role, world, id, &mut self.number),
            buffers::search(role, world, map, id, 7, 7, way),
            send_buffers::leave(role, world, sender, id, passed).map(drop),
            send_buffers::tune(role, world, sender, id, 7, passed).map(drop),
            send_buffers::step(role, world, sender, map, records, removed, passed).map(drop),
        ]
    }

    fn input(&mut self, role: i32, id: i32) -> Result<(), Refusal> {
        buffers::input(role, &mut self.world, id, HOOK)
    }

    fn reads(&mut self, role: i32, id: i32) -> [Result<(), Refusal>; 2] {
        let [_, _, record, ..] = &mut self.written;
        [
            buffers::record(role, &self.world, id, record),
            buffers::floor_mark(role, &self.world, id, &mut self.number),
        ]
    }
}

/// Before a wrong length, a map and an id that are none; nothing is written.
#[test]
fn not_allowed_comes_first() {
    for by in [0, 1, 5] {
        let mut lent = Lent::shorter(by);
        let before = lent.clone();
        for role in NO_ROLES.into_iter().chain([BOARD, 0, 63, 64, i32::MAX]) {
            for id in [0, 63, 64, -1, -3, i32::MIN] {
                for map in [OPEN, NO_MAP] {
                    let answers = lent.answers(role, &map, id);
                    assert_eq!(answers, [Err(Refusal::NotAllowed); 10]);
                }
                if role != BOARD {
                    assert_eq!(lent.reads(role, id), [Err(Refusal::NotAllowed); 2]);
                }
                if role != id || role < 0 {
                    assert_eq!(lent.input(role, id), Err(Refusal::NotAllowed));
                }
            }
        }
        assert_eq!(lent, before);
    }
}

/// Where the role allows it, the length is asked next, then the id.
#[test]
fn lengths_come_next() {
    let mut lent = Lent::shorter(1);
    let before = lent.clone();
    assert_eq!(
        lent.answers(REFEREE, &NO_MAP, -1),
        [Err(Refusal::BadLength); 10]
    );
    for role in [REFEREE, BOARD] {
        assert_eq!(lent.reads(role, -1), [Err(Refusal::BadLength); 2]);
    }
    for id in [0, 64, i32::MAX] {
        assert_eq!(lent.input(id, id), Err(Refusal::BadLength));
    }
    assert_eq!(lent, before);
    let mut lent = Lent::shorter(0);
    for id in [64, 65, i32::MAX] {
        assert_eq!(lent.input(id, id), Err(Refusal::BadId));
    }
    assert_eq!(lent.reads(BOARD, -2), [Err(Refusal::BadId); 2]);
}

/// No seat's number is that of another role, whatever id arrives at a server.
#[test]
fn a_seat_is_no_other_role() {
    for id in [0, 63].into_iter().chain(IDS).chain(LARGE_IDS) {
        let number = Role::Seat(CharacterId(id)).number();
        assert!(number != REFEREE && number != BOARD, "{id}");
        assert_eq!(u32::try_from(number), Ok(id.min(LAST_POSITIVE)));
    }
}
