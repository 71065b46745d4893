//! Plays pairs of solo heats on the port: two lists that are the same once the calls for
//! other ids are struck out tell the same of the one id, in each step. Arguments: how many
//! pairs, and a seed.

use compare_solo::heats::{Tally, compare};
use compare_solo::pairs::drawn;
use compare_world::arguments::numbers;

fn main() -> Result<(), String> {
    let [count, seed] = numbers("two", "pairs, seed")?;
    let mut tally = Tally::default();
    for number in 0..count {
        compare(&drawn(seed, number, 0).with_holds(number), &mut tally)
            .map_err(|what| format!("pair {number} of seed {seed}: {what}"))?;
    }
    let Tally {
        steps,
        present,
        beside_others,
    } = tally;
    println!(
        "{count} pairs of seed {seed}, {steps} steps, {present} of them with the id, \
         {beside_others} with other records of others: no difference"
    );
    Ok(())
}
