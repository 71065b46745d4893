//! A race that is shown elsewhere: six players run to and fro over a course, want something
//! else now and then, die on spikes and come back, and only what surprises the screen is
//! sent. After every step the screen has the records that the step took; in the end it is
//! printed how much was sent.
//!
//! ```sh
//! cargo run --release --example screens
//! ```

use ponguriena::{
    CORE_NUMBERS, Map, Passed, PassedAlong, PlayerInput, Records, Refusal, Role, Screen, Sender,
    World,
};

/// Solid at `#`; hooks do not hold at `=`; deadly at `^`.
const COURSE: [&str; 12] = [
    "################################################",
    "#                                              #",
    "#                                              #",
    "#             ====              ====           #",
    "#                                              #",
    "#                                              #",
    "#      ###            ###             ##       #",
    "#                                              #",
    "#                           #                  #",
    "#          #                #                  #",
    "#          #       ^^       #          ^^      #",
    "################################################",
];

/// The server makes every call itself.
const REFEREE: Role = Role::Referee;

/// By their ids.
const PLAYERS: [u8; 6] = [0, 1, 2, 3, 4, 5];
const STEPS: usize = 600;

/// Where the first one starts, and how far from one to the next.
const START: (i32, i32) = (60, 337);
const APART: i32 = 45;

/// A player wants something else every so many steps, each in its turn.
const TOLD_EVERY: usize = 25;

/// Who is gone comes back when so many steps are over again; before that somebody leaves.
const HEAT: usize = 100;

/// The server with the sender, the screen, and what went over the link between them.
struct Race<'a> {
    map: Map<'a>,
    world: World,
    sender: Sender,
    screen: Screen,
    /// Numbers that were sent, and those of all records.
    sent: usize,
    all: usize,
    messages: usize,
}

fn main() -> Result<(), Refusal> {
    let tiles = tiles();
    let mut race = Race {
        map: Map {
            width: COURSE[0].len() as u32,
            height: COURSE.len() as u32,
            tiles: &tiles,
        },
        world: World::fresh(),
        sender: Sender::fresh(),
        screen: Screen::fresh(),
        sent: 0,
        all: 0,
        messages: 0,
    };
    for step in 0..STEPS {
        race.come_and_go(step)?;
        race.tell(step)?;
        let (records, passed) = race.sender.step(REFEREE, &mut race.world, &race.map)?;
        race.show(&passed)?;
        race.check(step, &records);
    }
    race.print();
    Ok(())
}

impl Race<'_> {
    /// At the start of each heat who is not there joins; at its end one leaves.
    fn come_and_go(&mut self, step: usize) -> Result<(), Refusal> {
        let leaver = PLAYERS[step / HEAT % PLAYERS.len()].into();
        if step % HEAT == HEAT - 1 && self.world.record(REFEREE, leaver).is_ok() {
            let passed = self.sender.leave(REFEREE, &mut self.world, leaver)?;
            self.show(&passed)?;
        }
        for player in PLAYERS {
            let id = player.into();
            if step.is_multiple_of(HEAT) && self.world.record(REFEREE, id).is_err() {
                let (x, y) = START;
                let x = x + APART * i32::from(player);
                self.world.join(REFEREE, &self.map, id, x, y)?;
            }
        }
        Ok(())
    }

    fn tell(&mut self, step: usize) -> Result<(), Refusal> {
        for player in PLAYERS {
            let (id, turn) = (player.into(), step + 7 * usize::from(player));
            if turn.is_multiple_of(TOLD_EVERY) && self.world.record(REFEREE, id).is_ok() {
                let input = input(turn / TOLD_EVERY, player);
                self.world.input(REFEREE, id, input)?;
            }
        }
        Ok(())
    }

    /// What is passed along goes over the link.
    fn show(&mut self, passed: &PassedAlong) -> Result<(), Refusal> {
        let is_message = |thing: &Passed| matches!(thing, Passed::Message { .. });
        self.messages += passed.iter().filter(is_message).count();
        self.sent += passed.numbers().len();
        self.screen.receive(&self.map, passed.numbers())
    }

    /// Everybody who is still there is shown as it is.
    fn check(&mut self, step: usize, records: &Records) {
        for (id, core) in records {
            self.all += CORE_NUMBERS;
            if !records.removed().contains(&id) {
                let shown = self.screen.shown(id);
                assert_eq!(shown, Ok(core), "step {step}, player {id}");
            }
        }
    }

    fn print(&self) {
        let (sent, all, messages) = (self.sent, self.all, self.messages);
        let records = all / CORE_NUMBERS;
        let share = 100.0 * sent as f64 / all as f64;
        println!("{STEPS} steps with {records} records, each shown as it was taken");
        println!("{messages} messages: {sent} numbers sent in place of {all}, {share:.1} %");
    }
}

/// What a player wants, each time something else.
fn input(time: usize, player: u8) -> PlayerInput {
    PlayerInput {
        direction: [1, 1, 0, -1][time % 4],
        target_x: 60 - 20 * i32::from(player),
        target_y: -100,
        jump: i32::from(time % 3 == 1),
        hook: i32::from(time % 5 == 2),
    }
}

/// Bytes 1 and 3 are solid, 2 is deadly.
fn tiles() -> Vec<u8> {
    let tile = |letter| match letter {
        '#' => 1,
        '^' => 2,
        '=' => 3,
        _ => 0,
    };
    COURSE
        .iter()
        .flat_map(|row| row.chars().map(tile))
        .collect()
}
