//! Time per step of whole trials, by the port through its C interface and by the harness over
//! libtw2, each in one run with the same steps alone.

use crate::scene::joins;
use crate::scenes::course;
use crate::sides::{Original, Port, Side};
use crate::wholes::{print_heading, print_row, seconds};
use harness::trial::{MOST_STEPS, MOST_TUNINGS, Player, ROW_NUMBERS, Running, Trial, lent_trial};
use harness::tunings::{GRAVITY, ORDINARY, TUNINGS};
use harness::{Call, SEATS};
use ponguriena::trial;
use port_calls::lent;
use reference::Xorshift;
use tile_map::Map;
use tile_map::draw::below;
use timing::least_times;

const PLAYERS: [usize; 2] = [16, SEATS];

/// Under as many gravities as a trial has tunings, in hundredths.
const GRAVITIES: [i32; MOST_TUNINGS] = [20, 30, 40, 50, 60, 70, 80, 100];

/// The fastest of so many counts.
const ROUNDS: usize = 4;

/// A trial as the numbers that are lent for it, and its runs as calls.
struct Timed {
    map: Map,
    joins: Vec<i32>,
    targets: Vec<i32>,
    tunings: Vec<i32>,
    plays: Vec<Play>,
}

struct Play {
    /// Tunes and joins.
    start: Vec<Call>,
    /// The inputs before each step that are not those before the last.
    inputs: Vec<Vec<Call>>,
}

pub fn print_trials(random: &mut Xorshift) {
    print_heading("trial", "whole, us a step");
    for players in PLAYERS {
        let name = format!("{players} players, {MOST_TUNINGS} tunings");
        print_trial(&name, &Timed::drawn(players, random));
    }
}

fn print_trial(name: &str, timed: &Timed) {
    assert_eq!(timed.by_port(), timed.by_original(), "{name}");
    let times = least_times(
        ROUNDS,
        [
            &mut || [seconds(|| timed.by_port())],
            &mut || [seconds(|| timed.by_original())],
            &mut || [timed.steps_alone::<Port>()],
            &mut || [timed.steps_alone::<Original>()],
        ],
    );
    let steps = f64::from(MOST_STEPS) * MOST_TUNINGS as f64;
    let [port, original, port_steps, original_steps] = times.map(|[time]| time * 1e6 / steps);
    print_row(name, [port, original], [port_steps, original_steps]);
}

impl Timed {
    fn drawn(players: usize, random: &mut Xorshift) -> Timed {
        let map = course(random);
        let joins = joins(&map, players, random);
        let target = |_: &Call| [map.width, map.height].map(|side| below(random, side) as i32);
        let targets: Vec<[i32; 2]> = joins.iter().map(target).collect();
        let tunings = GRAVITIES.map(|gravity| {
            let mut tunings = ORDINARY;
            tunings[GRAVITY] = gravity;
            tunings
        });
        let trial = Trial {
            players: joins.iter().zip(&targets).map(player).collect(),
            tunings: tunings.to_vec(),
            steps: MOST_STEPS,
        };
        Timed {
            plays: plays(&trial, &joins, &map),
            map,
            joins: joins
                .iter()
                .flat_map(|call| call.numbers()[1..4].to_vec())
                .collect(),
            targets: targets.concat(),
            tunings: tunings.concat(),
        }
    }

    fn by_port(&self) -> Vec<i32> {
        let mut result = vec![0; MOST_TUNINGS * ROW_NUMBERS];
        let (joins, targets, tunings) = (&self.joins, &self.targets, &self.tunings);
        let map = &lent(&self.map);
        trial::run(map, joins, targets, tunings, MOST_STEPS, &mut result).expect("a trial");
        result
    }

    fn by_original(&self) -> Vec<i32> {
        let (joins, targets, tunings) = (&self.joins, &self.targets, &self.tunings);
        let room = MOST_TUNINGS * ROW_NUMBERS;
        lent_trial(&self.map, joins, targets, tunings, MOST_STEPS, room).expect("a trial")
    }

    /// Seconds, without the joins and the inputs.
    fn steps_alone<'a, S: Side<'a>>(&'a self) -> f64 {
        let time = |play: &Play| {
            let mut side = S::on(&self.map);
            play.start.iter().for_each(|&call| side.call(call));
            let step = |inputs: &Vec<Call>| {
                inputs.iter().for_each(|&call| side.call(call));
                seconds(|| side.call(Call::Step))
            };
            play.inputs.iter().map(step).sum::<f64>()
        };
        self.plays.iter().map(time).sum()
    }
}

fn player((call, target): (&Call, &[i32; 2])) -> Player {
    let &Call::Join { id, x, y } = call else {
        panic!("a join");
    };
    Player {
        id,
        place: (x, y),
        target: (target[0], target[1]),
    }
}

/// No step of them is refused.
fn plays(trial: &Trial, joins: &[Call], map: &Map) -> Vec<Play> {
    let runs = trial.begun(map).expect("a trial").into_iter();
    let play = |(mut run, tunings): (Running, &[i32; TUNINGS])| {
        let tunes = (0..)
            .zip(tunings)
            .map(|(index, &hundredths)| Call::Tune { index, hundredths });
        let start = tunes.chain(joins.iter().copied()).collect();
        let mut last = Vec::new();
        let inputs = (0..MOST_STEPS).map(|_| {
            let told = run.inputs(map);
            run.step(map).expect("short walks");
            changed(&told, std::mem::replace(&mut last, told.clone()))
        });
        let inputs = inputs.collect();
        Play { start, inputs }
    };
    runs.zip(&trial.tunings).map(play).collect()
}

/// Those that the last ones have not.
fn changed(told: &[Call], last: Vec<Call>) -> Vec<Call> {
    let last: Vec<_> = last.iter().map(|call| call.numbers()).collect();
    let new = told.iter().filter(|call| !last.contains(&call.numbers()));
    new.copied().collect()
}
