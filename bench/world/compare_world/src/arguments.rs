//! What a comparison is told.

use std::env;

pub struct Arguments {
    /// How many sequences are drawn.
    pub sequences: u64,
    /// How many buffers of any numbers are.
    pub buffers: u64,
    pub seed: u64,
}

pub fn arguments() -> Result<Arguments, String> {
    let [sequences, buffers, seed] = numbers("three", "sequences, buffers, seed")?;
    Ok(Arguments {
        sequences,
        buffers,
        seed,
    })
}

/// So many as the names are.
pub fn numbers<const N: usize>(count: &str, names: &str) -> Result<[u64; N], String> {
    let words: Vec<String> = env::args().skip(1).collect();
    let number = |word: &String| {
        word.parse::<u64>()
            .map_err(|_| format!("{word}: no number"))
    };
    let numbers = words.iter().map(number).collect::<Result<Vec<u64>, _>>()?;
    let wrong = |_| format!("{count} numbers are to be named: {names}");
    numbers.try_into().map_err(wrong)
}
