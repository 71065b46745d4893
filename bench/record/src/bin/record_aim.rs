//! Prints test vectors for the program `test_aim`, after those that
//! `tools/angle_entries` prints. A line is the number that the program has for a
//! function, then the bits of the arguments and of the answer, 8 hex digits each
//! and five in all: 0 where there are fewer.

use reference::aim_edges::{
    game_ramp, power_edges, random_power, random_ramp, random_target, target_edges,
};
use reference::{Bits, Xorshift};

const RANDOM_LINES: usize = 800;

fn main() {
    let mut random = Xorshift::default();
    let targets = target_edges();
    for (x, y) in with_random(targets, || random_target(&mut random)) {
        let [x_bits, y_bits, angle] = [x, y, reference::net_angle(x, y)].map(Bits::to_pattern);
        print(1, &[x_bits, y_bits, angle, reference::entries_read(x, y)]);
    }
    for (c, e) in with_random(power_edges(), || random_power(&mut random)) {
        print(2, &[c, e, reference::powf(c, e)].map(Bits::to_pattern));
    }
    let games = std::iter::repeat_with(|| game_ramp(&mut random));
    let games = games.take(RANDOM_LINES).collect();
    for (value, tunings) in with_random(games, || random_ramp(&mut random)) {
        let [start, range, curvature] = tunings;
        let factor = reference::velocity_ramp(value, start, range, curvature);
        let [start, range, curvature] = tunings.map(Bits::to_pattern);
        print(
            3,
            &[
                value.to_pattern(),
                start,
                range,
                curvature,
                factor.to_pattern(),
            ],
        );
    }
}

fn with_random<A>(edges: Vec<A>, random: impl FnMut() -> A) -> impl Iterator<Item = A> {
    let randoms = std::iter::repeat_with(random).take(RANDOM_LINES);
    edges.into_iter().chain(randoms)
}

fn print(number: u32, patterns: &[u32]) {
    print!("{number}");
    for k in 0..5 {
        print!(" {:08x}", patterns.get(k).copied().unwrap_or(0));
    }
    println!();
}
