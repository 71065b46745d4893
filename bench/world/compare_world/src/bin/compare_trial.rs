//! Compares the port's trials with the harness's own reading of change request 11: the answer and
//! every number of the result. Arguments: how many trials, and a seed.

use compare_world::arguments::numbers;
use compare_world::trials::{Tally, compare, drawn};

fn main() -> Result<(), String> {
    let [count, seed] = numbers("two", "trials, seed")?;
    let mut tally = Tally::default();
    for case in record_trial::all_cases() {
        compare(&case, &mut tally).map_err(|what| format!("recorded: {what}"))?;
    }
    for number in 0..count {
        compare(&drawn(seed, number), &mut tally)
            .map_err(|what| format!("trial {number} of seed {seed}: {what}"))?;
    }
    println!("{count} trials of seed {seed} and the recorded ones, {tally}: no difference");
    Ok(())
}
