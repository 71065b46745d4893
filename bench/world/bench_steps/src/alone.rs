//! Time per call of what nothing in libtw2 stands beside: fresh buffers, what is read, and what goes
//! to the screens but for steps. By the port alone, on the world that a scene leaves.

use crate::scene::Scene;
use crate::sending::Sending;
use crate::sides::Side;
use harness::roles::REFEREE;
use harness::{Call, SEATS};
use ponguriena::send_buffers::{self, SCREEN_NUMBERS, SENDER_NUMBERS};
use ponguriena::{CORE_NUMBERS, INPUT_NUMBERS, PlayerInput, buffers};
use timing::print_port;

const PASSES: usize = 50;

/// A mark steps every copy, so it takes as long as a step.
const MARK_PASSES: usize = 1;

const ONCE: [(); 1] = [()];

const MARK: [i32; 1] = [0];

pub fn print_alone(scene: &Scene) {
    let ids: Vec<i32> = (0..SEATS as i32).collect();
    let mut sending = Sending::begun(scene);
    for &call in scene.blocks.iter().flatten() {
        sending.call(call);
        sending.call(Call::Step);
    }
    print_fresh(&scene.name);
    print_reads(&scene.name, &sending.port.world, &ids);
    print_screen(scene, &sending, &ids);
    print_sent(scene, &mut sending, &ids);
}

fn print_fresh(kind: &str) {
    let mut world = [0; buffers::WORLD_NUMBERS];
    let (mut sender, mut screen) = ([0; SENDER_NUMBERS], [0; SCREEN_NUMBERS]);
    let print = |name, run: &mut dyn FnMut()| print_port(name, kind, PASSES, &ONCE, |()| run());
    print("fresh", &mut || _ = buffers::fresh(&mut world));
    print("sender_fresh", &mut || {
        _ = send_buffers::fresh_sender(&mut sender);
    });
    print("screen_fresh", &mut || {
        _ = send_buffers::fresh_screen(&mut screen);
    });
}

fn print_reads(kind: &str, world: &[i32], ids: &[i32]) {
    let (mut record, mut input, mut number) = ([0; CORE_NUMBERS], [0; INPUT_NUMBERS], 0);
    let print = |name, indexes: &[i32], run: &mut dyn FnMut(i32)| {
        print_port(name, kind, PASSES, indexes, run);
    };
    print("record", ids, &mut |id| {
        _ = buffers::record(REFEREE, world, id, &mut record);
    });
    print("player_input", ids, &mut |id| {
        _ = buffers::player_input(REFEREE, world, id, &mut input);
    });
    print("floor_mark", ids, &mut |id| {
        _ = buffers::floor_mark(REFEREE, world, id, &mut number);
    });
    print("tuning", &ids[..buffers::TUNINGS], &mut |index| {
        _ = buffers::tuning(REFEREE, world, index, &mut number);
    });
}

/// On a screen that has a copy of everybody.
fn print_screen(scene: &Scene, sending: &Sending, ids: &[i32]) {
    let (map, mut record) = (&sending.port.map, [0; CORE_NUMBERS]);
    let mut screen = [0; SCREEN_NUMBERS];
    send_buffers::fresh_screen(&mut screen).expect("the right length");
    let messages: Vec<Vec<i32>> = ids.iter().map(|&id| message(sending, id)).collect();
    let rows: Vec<&[i32]> = messages.iter().map(Vec::as_slice).collect();
    let kind = &scene.name;
    print_port("receive message", kind, PASSES, &rows, |passed| {
        send_buffers::receive(&mut screen, map, passed)
    });
    print_port("shown", kind, PASSES, ids, |id| {
        send_buffers::shown(&screen, id, &mut record)
    });
    print_port("receive mark", kind, MARK_PASSES, &ONCE, |()| {
        send_buffers::receive(&mut screen, map, &MARK)
    });
}

/// A message about somebody as it now is.
fn message(sending: &Sending, id: i32) -> Vec<i32> {
    let mut record = [0; CORE_NUMBERS];
    let world = &sending.port.world;
    buffers::record(REFEREE, world, id, &mut record).expect("everybody is there");
    let input = PlayerInput::default().numbers();
    [&[1, id], &record[..], &input].concat()
}

/// Whoever leaves joins again, so that the world stays full.
fn print_sent(scene: &Scene, sending: &mut Sending, ids: &[i32]) {
    let tunings = &ids[..buffers::TUNINGS];
    print_port("send_tune", &scene.name, PASSES, tunings, |index| {
        sending.call(Call::Tune {
            index,
            hundredths: 50,
        });
    });
    let joins: Vec<Call> = scene.start.iter().copied().filter(is_join).collect();
    print_port("send_leave, join", &scene.name, PASSES, &joins, |join| {
        if let Call::Join { id, .. } = join {
            sending.call(Call::Leave { id });
            sending.call(join);
        }
    });
}

fn is_join(call: &Call) -> bool {
    matches!(call, Call::Join { .. })
}
