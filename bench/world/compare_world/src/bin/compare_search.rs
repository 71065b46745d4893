//! Compares the port's searches with the harness's own reading of change request 12: the answer,
//! the way, and that the world's numbers stay. Arguments: how many worlds, and a seed.

use compare_world::arguments::numbers;
use compare_world::differs::Differs;
use compare_world::searches::{Tally, compare, replay};

fn main() -> Result<(), String> {
    let [count, seed] = numbers("two", "worlds, seed")?;
    let mut tally = Tally::default();
    for sequence in record_search::all_sequences() {
        replay(&sequence, &mut tally).map_err(|what| format!("recorded: {what}"))?;
    }
    for number in 0..count {
        let told = |what: Differs| format!("world {number} of seed {seed}: {what}");
        compare(seed, number, &mut tally).map_err(told)?;
    }
    println!("{count} worlds of seed {seed} and the recorded ones, {tally}: no difference");
    Ok(())
}
