//! Time per step of the port with a sender beside the world, in one run with that of the
//! step alone; and how much is passed along.

use crate::play::{per_step, times};
use crate::scene::{BLOCKS, ROUNDS, STEPS, Scene};
use crate::sides::{Numbers, Port, Side};
use harness::Call;
use harness::roles::REFEREE;
use harness::sending::SENDER_NUMBERS;
use ponguriena::send_buffers::{self, PASSED_NUMBERS};
use tile_map::Map;
use timing::least_times;

/// The port, whose leaves, tunes and steps go through its sender.
pub struct Sending<'a> {
    pub port: Port<'a>,
    sender: [i32; SENDER_NUMBERS],
    passed: [i32; PASSED_NUMBERS],
    /// How many numbers the last call has passed along.
    count: usize,
}

impl<'a> Side<'a> for Sending<'a> {
    fn on(map: &'a Map) -> Sending<'a> {
        let mut sender = [0; SENDER_NUMBERS];
        send_buffers::fresh_sender(&mut sender).expect("the right length");
        Sending {
            port: Port::on(map),
            sender,
            passed: [0; PASSED_NUMBERS],
            count: 0,
        }
    }

    fn call(&mut self, call: Call) {
        let (port, sender, passed) = (&mut self.port, &mut self.sender, &mut self.passed);
        let world = &mut port.world;
        let count = match call {
            Call::Step => {
                let (records, removed) = (&mut port.records, &mut port.removed);
                let map = &port.map;
                let answer =
                    send_buffers::step(REFEREE, world, sender, map, records, removed, passed);
                answer.map(|counts| {
                    port.count = counts.removed;
                    counts.passed
                })
            }
            Call::Leave { id } => send_buffers::leave(REFEREE, world, sender, id, passed),
            Call::Tune { index, hundredths } => {
                send_buffers::tune(REFEREE, world, sender, index, hundredths, passed)
            }
            Call::Join { .. } | Call::Input { .. } => {
                port.call(call);
                Ok(0)
            }
        };
        self.count = count.expect("the scene was accepted when it was drawn");
    }

    fn numbers(&self) -> Numbers {
        self.port.numbers()
    }
}

pub fn print_sending(scenes: &[Scene]) {
    println!(
        "{:<30} {:>9} {:>9} {:>9} {:>9} {:>9} {:>9}",
        "", "step", "sending", "", "sender's", "numbers", "all"
    );
    println!(
        "{:<30} {:>9} {:>9} {:>9} {:>9} {:>9} {:>9}",
        "scene", "us", "us", "ratio", "own ratio", "a step", "records"
    );
    scenes.iter().for_each(print_row);
}

fn print_row(scene: &Scene) {
    let numbers = compared(scene) as f64 / (BLOCKS * STEPS) as f64;
    let [alone, sending] = least_times(
        ROUNDS,
        [&mut || times::<Port>(scene), &mut || {
            times::<Sending>(scene)
        }],
    )
    .map(per_step);
    let (ratio, own) = (sending / alone, (sending - alone) / alone);
    let all = scene.records() as f64 / (BLOCKS * STEPS) as f64;
    println!(
        "{:<30} {alone:>9.2} {sending:>9.2} {ratio:>9.2} {own:>9.2} {numbers:>9.1} {all:>9.1}",
        scene.name
    );
}

/// How many numbers the steps pass along. Stops where the sender makes another world.
fn compared(scene: &Scene) -> usize {
    let (mut port, mut sending) = (Port::begun(scene), Sending::begun(scene));
    let mut numbers = 0;
    let mut both = |call: Call| {
        port.call(call);
        sending.call(call);
        let same = port.numbers() == sending.numbers();
        assert!(same, "{}: the sender makes another world", scene.name);
        sending.count
    };
    for calls in &scene.blocks {
        calls.iter().for_each(|&call| {
            both(call);
        });
        numbers += (0..STEPS).map(|_| both(Call::Step)).sum::<usize>();
    }
    numbers
}
