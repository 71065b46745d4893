//! Tables of something whole beside the steps that it takes, by the port and by libtw2 with the
//! port's own angle.

use original::find_angles_by;
use std::hint::black_box;
use std::time::Instant;

/// The unit of a whole; that of the steps is microseconds.
pub fn print_heading(kind: &str, unit: &str) {
    find_angles_by(parts::net_angle);
    let steps = "steps alone, us each";
    println!("{:<30} {unit:^29} {steps:^29}", "");
    print!("{kind:<30}");
    for _ in 0..2 {
        print!(" {:>9} {:>9} {:>9}", "port", "libtw2", "ratio");
    }
    println!();
}

/// Of the port and of libtw2.
pub fn print_row(name: &str, whole: [f64; 2], steps: [f64; 2]) {
    print!("{name:<30}");
    for [port, original] in [whole, steps] {
        print!(" {port:>9.2} {original:>9.2} {:>9.2}", port / original);
    }
    println!();
}

pub fn seconds<T>(run: impl FnOnce() -> T) -> f64 {
    let start = Instant::now();
    black_box(run());
    start.elapsed().as_secs_f64()
}
