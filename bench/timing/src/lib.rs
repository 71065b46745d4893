//! Time per call, in throughput, of the port and of the Rust it is compared with.

use std::hint::black_box;
use std::time::Instant;

const ROUNDS: usize = 200;

pub fn print_heading() {
    println!(
        "{:<16} {:<9} {:>9} {:>9} {:>9}",
        "name", "inputs", "port ns", "Rust ns", "ratio"
    );
}

/// Every round makes so many passes over the inputs; the fastest round counts.
pub fn print_row<A: Copy, R>(
    name: &str,
    kind: &str,
    passes: usize,
    inputs: &[A],
    mut port: impl FnMut(A) -> R,
    mut reference: impl FnMut(A) -> R,
) {
    let [[port_time], [reference_time]] = least_times(
        ROUNDS,
        [
            &mut || [time_per_call(&mut port, passes, inputs)],
            &mut || [time_per_call(&mut reference, passes, inputs)],
        ],
    );
    let ratio = port_time / reference_time;
    println!("{name:<16} {kind:<9} {port_time:>9.2} {reference_time:>9.2} {ratio:>9.2}");
}

/// The same for what nothing is compared with.
pub fn print_port<A: Copy, R>(
    name: &str,
    kind: &str,
    passes: usize,
    inputs: &[A],
    mut port: impl FnMut(A) -> R,
) {
    let [[time]] = least_times(
        ROUNDS,
        [&mut || [time_per_call(&mut port, passes, inputs)]],
    );
    println!("{name:<16} {kind:<9} {time:>9.2}");
}

/// Each run gives the times of its parts; the least of each part over all rounds
/// counts, so that little of what else the machine does is in it.
pub fn least_times<const RUNS: usize, const PARTS: usize>(
    rounds: usize,
    mut runs: [&mut dyn FnMut() -> [f64; PARTS]; RUNS],
) -> [[f64; PARTS]; RUNS] {
    let mut least = [[f64::INFINITY; PARTS]; RUNS];
    // In turn, so that a change of the clock rate meets all.
    for _ in 0..rounds {
        for (least, run) in least.iter_mut().zip(&mut runs) {
            for (least, time) in least.iter_mut().zip(run()) {
                *least = least.min(time);
            }
        }
    }
    least
}

/// Nanoseconds, with the cost of the loop itself, which is the same for both.
fn time_per_call<A: Copy, R>(mut function: impl FnMut(A) -> R, passes: usize, inputs: &[A]) -> f64 {
    let start = Instant::now();
    for _ in 0..passes {
        for &input in inputs {
            // Single calls are compared: without black_box the compiler may
            // work on several inputs with one vector instruction.
            black_box(function(input));
        }
    }
    start.elapsed().as_nanos() as f64 / (passes * inputs.len()) as f64
}
