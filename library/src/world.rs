//! A world of characters and its five calls.

use crate::buffers::{self, PUBLISHED_NUMBERS, RECORDS_NUMBERS, SEATS, WAY_NUMBERS, WORLD_NUMBERS};
use crate::character_id::CharacterId;
use crate::layout::assert_layout;
use crate::map::Map;
use crate::refusal::Refusal;
use crate::role::Role;
use crate::search::Way;
use crate::snap_obj::{CORE_NUMBERS, CharacterCore, INPUT_NUMBERS, PlayerInput};

/// Sixty-four seats, each empty or with a character, its last input and its floor mark,
/// and the tunings. No call stops on any input: it does its work, or gives a [`Refusal`]
/// and leaves the world as it was. Whoever calls names a [`Role`]: all is the referee's, but
/// for what is said of seats and boards.
///
/// ```
/// use ponguriena::{CharacterId, Map, PlayerInput, Refusal, Role, World};
///
/// let map = Map { width: 3, height: 3, tiles: &[0, 0, 0, 0, 0, 0, 1, 1, 1] };
/// let mut world = World::fresh();
/// let id = CharacterId(7);
/// world.join(Role::Referee, &map, id, 20, 48)?;
/// world.input(Role::Seat(id), id, PlayerInput { direction: 1, ..PlayerInput::default() })?;
/// for (id, core) in &world.step(Role::Referee, &map)? {
///     assert_eq!((id, core.x, core.y), (CharacterId(7), 22, 49));
/// }
/// assert_eq!(world.leave(Role::Referee, CharacterId(8)), Err(Refusal::Absent));
/// assert_eq!(world.leave(Role::Seat(id), id), Err(Refusal::NotAllowed));
/// # Ok::<(), Refusal>(())
/// ```
#[derive(Clone, Debug, Eq, PartialEq)]
pub struct World {
    numbers: [i32; WORLD_NUMBERS],
}

/// What a step publishes: the record of each id that was present, by rising id, and who
/// was removed after that.
///
/// ```
/// # use ponguriena::{CharacterId, Role};
/// # let map = ponguriena::Map { width: 1, height: 1, tiles: &[0] };
/// # let mut world = ponguriena::World::fresh();
/// # world.join(Role::Referee, &map, CharacterId(3), 5, 5)?;
/// let records = world.step(Role::Referee, &map)?;
/// let ids: Vec<CharacterId> = records.iter().map(|(id, _)| id).collect();
/// assert_eq!(ids, [CharacterId(3)]);
/// # Ok::<(), ponguriena::Refusal>(())
/// ```
#[derive(Clone, Debug, Eq, PartialEq)]
pub struct Records {
    numbers: [i32; RECORDS_NUMBERS],
    removed: [CharacterId; SEATS],
    count: usize,
}

impl World {
    /// Nobody is present, and the tunings are those of the game.
    ///
    /// # Panics
    ///
    /// Where the library that was linked has another [`LAYOUT`](crate::LAYOUT).
    pub fn fresh() -> World {
        assert_layout();
        let mut numbers = [0; WORLD_NUMBERS];
        // Only another length is refused, and then every later call answers so too.
        let _ = buffers::fresh(&mut numbers);
        World { numbers }
    }

    /// A world that was kept as numbers; [`buffers`] says what any numbers mean.
    ///
    /// # Panics
    ///
    /// As [`World::fresh`].
    pub fn from_numbers(numbers: [i32; WORLD_NUMBERS]) -> World {
        assert_layout();
        World { numbers }
    }

    /// The whole world as numbers, to be kept.
    pub fn numbers(&self) -> &[i32; WORLD_NUMBERS] {
        &self.numbers
    }

    /// For the calls that pass along what they do to it.
    pub(crate) fn numbers_mut(&mut self) -> &mut [i32; WORLD_NUMBERS] {
        &mut self.numbers
    }

    /// The id joins at a place. Refused: a map at fault, an id without a seat, a place
    /// out of reach or not clear, an id that is present.
    pub fn join(
        &mut self,
        role: Role,
        map: &Map<'_>,
        id: CharacterId,
        x: i32,
        y: i32,
    ) -> Result<(), Refusal> {
        buffers::join(role.number(), &mut self.numbers, map, id.number(), x, y)
    }

    /// The id is absent from now on. Every hook that holds it is retracted.
    pub fn leave(&mut self, role: Role, id: CharacterId) -> Result<(), Refusal> {
        buffers::leave(role.number(), &mut self.numbers, id.number())
    }

    /// What the id wants in every step from now on. The seat of this id may tell it too.
    pub fn input(
        &mut self,
        role: Role,
        id: CharacterId,
        input: PlayerInput,
    ) -> Result<(), Refusal> {
        // All ids beyond i32 have one number, so a seat's id is compared before.
        if let Role::Seat(own) = role
            && own != id
        {
            return Err(Refusal::NotAllowed);
        }
        buffers::input(role.number(), &mut self.numbers, id.number(), input)
    }

    /// Sets a [`Tuning`](crate::Tuning), named by itself or by its index; every number is taken but
    /// for a hold outside its limits. Refused: an index that no tuning has, such a hold.
    ///
    /// ```
    /// # use ponguriena::{Refusal, Role, Tuning, World};
    /// # let mut world = World::fresh();
    /// world.tune(Role::Referee, Tuning::Gravity, -25)?;
    /// world.tune(Role::Referee, Tuning::HookHold, 30)?;
    /// let no_hold = world.tune(Role::Referee, Tuning::HookHold, 61);
    /// assert_eq!(no_hold, Err(Refusal::BadHold));
    /// assert_eq!(world.tuning(Role::Referee, Tuning::HookHold), Ok(30));
    /// # Ok::<(), Refusal>(())
    /// ```
    pub fn tune(&mut self, role: Role, tuning: impl Into<i32>, value: i32) -> Result<(), Refusal> {
        buffers::tune(role.number(), &mut self.numbers, tuning.into(), value)
    }

    /// Everybody present ticks by rising id; then each moves and is quantized. Their
    /// records are taken, and whoever has a corner on a deadly tile is removed as by
    /// [`World::leave`]. Refused: a map at fault, a walk that is too long.
    pub fn step(&mut self, role: Role, map: &Map<'_>) -> Result<Records, Refusal> {
        let mut numbers = [0; RECORDS_NUMBERS];
        let mut removed = [0; SEATS];
        let (role, world) = (role.number(), &mut self.numbers);
        let count = buffers::step(role, world, map, &mut numbers, &mut removed)?;
        Ok(Records::new(numbers, removed, count))
    }

    /// The record of an id that is present, as its seat now stands: whom its hook held in the
    /// last step may have left since. A board may read it too.
    /// Refused: an id without a seat, an id that is absent.
    pub fn record(&self, role: Role, id: CharacterId) -> Result<CharacterCore, Refusal> {
        let mut numbers = [0; CORE_NUMBERS];
        buffers::record(role.number(), &self.numbers, id.number(), &mut numbers)?;
        Ok(CharacterCore::from_numbers(numbers))
    }

    /// The last input of an id that is present.
    pub fn player_input(&self, role: Role, id: CharacterId) -> Result<PlayerInput, Refusal> {
        let mut numbers = [0; INPUT_NUMBERS];
        buffers::player_input(role.number(), &self.numbers, id.number(), &mut numbers)?;
        Ok(PlayerInput::from_numbers(numbers))
    }

    /// Whether an id that is present stood on the ground when the last step since its
    /// join began; false where there was none. A board may read it too.
    ///
    /// ```
    /// # use ponguriena::{CharacterId, Role};
    /// # let map = ponguriena::Map { width: 3, height: 3, tiles: &[0, 0, 0, 0, 0, 0, 1, 1, 1] };
    /// # let mut world = ponguriena::World::fresh();
    /// world.join(Role::Referee, &map, CharacterId(7), 48, 49)?;
    /// assert_eq!(world.floor_mark(Role::Board, CharacterId(7)), Ok(false));
    /// world.step(Role::Referee, &map)?;
    /// assert_eq!(world.floor_mark(Role::Board, CharacterId(7)), Ok(true));
    /// # Ok::<(), ponguriena::Refusal>(())
    /// ```
    pub fn floor_mark(&self, role: Role, id: CharacterId) -> Result<bool, Refusal> {
        let mut mark = 0;
        buffers::floor_mark(role.number(), &self.numbers, id.number(), &mut mark)?;
        Ok(mark != 0)
    }

    /// How could an id get to a place? The first list of inputs whose last record has that x and
    /// y, or none where no list has.
    ///
    /// Tried are lists of one, two or three steps for this id, the inputs of others as stored.
    /// Each step has direction -1, 0 or 1 and jump 0 or 1, with hook 0 and the stored target.
    /// Shorter lists come first, then direction, then jump, of the earliest step in which they
    /// differ, rising. A list in which a step is refused as [`Refusal::TooFar`], or which loses
    /// the id to a deadly tile before its last step, does not count. The world is not touched.
    /// Refused: a map at fault, an id without a seat, an id that is absent.
    ///
    /// It makes up to 306 steps (slowest found 1.6 s): it belongs on another thread than the one
    /// that steps the world, with a copy of it.
    ///
    /// ```
    /// # use ponguriena::{CharacterId, Map, Refusal, Role, World};
    /// # let id = CharacterId(7);
    /// # let map = Map { width: 3, height: 3, tiles: &[0, 0, 0, 0, 0, 0, 1, 1, 1] };
    /// # let mut world = World::fresh();
    /// world.join(Role::Referee, &map, id, 40, 49)?;
    /// let way = world.search(Role::Referee, &map, id, 46, 49)?.expect("two steps to the right");
    /// for buttons in way.steps() {
    ///     let stored = world.player_input(Role::Referee, id)?;
    ///     world.input(Role::Referee, id, buttons.input(stored))?;
    ///     world.step(Role::Referee, &map)?;
    /// }
    /// assert_eq!(world.record(Role::Board, id)?.x, 46);
    /// assert_eq!(world.search(Role::Referee, &map, id, 90, 49), Ok(None));
    /// # Ok::<(), Refusal>(())
    /// ```
    pub fn search(
        &self,
        role: Role,
        map: &Map<'_>,
        id: CharacterId,
        x: i32,
        y: i32,
    ) -> Result<Option<Way>, Refusal> {
        let mut numbers = [0; WAY_NUMBERS];
        let (role, id) = (role.number(), id.number());
        buffers::search(role, &self.numbers, map, id, x, y, &mut numbers)?;
        Ok(Way::of_numbers(numbers))
    }

    /// A [`Tuning`](crate::Tuning), named by itself or by its index; a hold as it counts, so always
    /// within its limits.
    pub fn tuning(&self, role: Role, tuning: impl Into<i32>) -> Result<i32, Refusal> {
        let mut value = 0;
        buffers::tuning(role.number(), &self.numbers, tuning.into(), &mut value)?;
        Ok(value)
    }
}

impl Records {
    /// As a step has written them.
    pub(crate) fn new(
        numbers: [i32; RECORDS_NUMBERS],
        removed: [i32; SEATS],
        count: usize,
    ) -> Records {
        Records {
            numbers,
            removed: removed.map(CharacterId::of_number),
            count,
        }
    }

    /// Of those who were present, by rising id.
    pub fn iter(&self) -> RecordsIter<'_> {
        RecordsIter {
            records: self,
            ids: 0..SEATS as u32,
        }
    }

    /// Of one id, where it was present when the step was called.
    ///
    /// ```
    /// # use ponguriena::{CharacterId, Map, Refusal, Role, World};
    /// # let map = Map { width: 1, height: 1, tiles: &[0] };
    /// # let mut world = World::fresh();
    /// # world.join(Role::Referee, &map, CharacterId(3), 5, 5)?;
    /// let records = world.step(Role::Referee, &map)?;
    /// assert_eq!(records.get(CharacterId(3)).map(|core| (core.x, core.y)), Some((5, 6)));
    /// assert_eq!(records.get(CharacterId(4)), None);
    /// assert_eq!(records.get(CharacterId(64)), None);
    /// # Ok::<(), Refusal>(())
    /// ```
    pub fn get(&self, id: CharacterId) -> Option<CharacterCore> {
        let seat = usize::try_from(id.0).ok()?;
        let numbers = self.numbers.chunks_exact(PUBLISHED_NUMBERS).nth(seat)?;
        let (&present, core) = numbers.split_first()?;
        let core = core.try_into().ok()?;
        (present != 0).then(|| CharacterCore::from_numbers(core))
    }

    /// Who was removed after the records were taken, by rising id.
    ///
    /// ```
    /// # use ponguriena::{CharacterId, Map, Refusal, Role, World};
    /// let spikes = Map { width: 1, height: 1, tiles: &[2] };
    /// let mut world = World::fresh();
    /// world.join(Role::Referee, &spikes, CharacterId(3), 5, 5)?;
    /// let records = world.step(Role::Referee, &spikes)?;
    /// assert_eq!(records.iter().count(), 1);
    /// assert_eq!(records.removed(), [CharacterId(3)]);
    /// assert_eq!(world.record(Role::Board, CharacterId(3)), Err(Refusal::Absent));
    /// # Ok::<(), Refusal>(())
    /// ```
    pub fn removed(&self) -> &[CharacterId] {
        &self.removed[..self.count]
    }
}

/// Goes through [`Records`].
#[derive(Clone, Debug)]
pub struct RecordsIter<'a> {
    records: &'a Records,
    ids: core::ops::Range<u32>,
}

impl Iterator for RecordsIter<'_> {
    type Item = (CharacterId, CharacterCore);

    fn next(&mut self) -> Option<(CharacterId, CharacterCore)> {
        let record = |id| Some((id, self.records.get(id)?));
        self.ids.by_ref().map(CharacterId).find_map(record)
    }
}

impl Default for World {
    /// As [`World::fresh`].
    fn default() -> World {
        World::fresh()
    }
}

impl<'a> IntoIterator for &'a Records {
    type Item = (CharacterId, CharacterCore);
    type IntoIter = RecordsIter<'a>;

    fn into_iter(self) -> RecordsIter<'a> {
        self.iter()
    }
}
