//! Plays a server's very long life, and worse, through the C interface. After each call the fences
//! around all that was lent are looked at, and what it answered and left is compared with the
//! harness. Stops at the first difference, and fails where an answer that may come never came.
//! Under valgrind, which is told where the fences are, reads outside are seen too; the profile
//! `memcheck` is for that. Arguments: how many calls, and a seed.

use compare_world::arguments::numbers;
use soak::{Soak, hush};
use std::time::Instant;

fn main() -> Result<(), String> {
    let [calls, seed] = numbers("two", "calls, seed")?;
    hush();
    let start = Instant::now();
    let mut soak = Soak::seeded(seed);
    soak.play(calls)?;
    println!("{}\n{}", soak.tally, soak.course());
    let seconds = start.elapsed().as_secs_f64();
    let pace = calls as f64 / seconds;
    println!(
        "seed {seed}: no difference, no write outside; {seconds:.1} s, {pace:.0} calls a second"
    );
    match soak.tally.missing()[..] {
        [] => Ok(()),
        ref missing => Err(format!("never came: {missing:?}")),
    }
}
