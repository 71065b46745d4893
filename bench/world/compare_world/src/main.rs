//! Compares the port's world with document 01's world over libtw2: every answer,
//! all records, who is removed and the whole world after each call. Sequences of
//! calls go through the safe `World` as the referee; calls and reads as any role go
//! through the buffers, on any numbers and some of a wrong length. Arguments: how many sequences, how many buffers, and a seed.

use compare_world::arguments::{Arguments, arguments};
use compare_world::differs::Differs;
use compare_world::{lent_asks, replay, sequences};
use record_calls::all_sequences;

fn main() -> Result<(), String> {
    let Arguments {
        sequences,
        buffers,
        seed,
    } = arguments()?;
    compare_sequences(sequences, seed)?;
    compare_buffers(buffers, seed)
}

/// The recorded ones first.
fn compare_sequences(count: u64, seed: u64) -> Result<(), String> {
    let mut calls = 0;
    for sequence in all_sequences() {
        calls += replay::replay(&sequence).map_err(|what| format!("recorded: {what}"))?;
    }
    for number in 0..count {
        let sequence = sequences::drawn(seed, number);
        let told = |what: Differs| format!("sequence {number} of seed {seed}: {what}");
        calls += replay::replay(&sequence).map_err(told)?;
    }
    println!(
        "{count} sequences of seed {seed} and the recorded ones, {calls} calls: no difference"
    );
    Ok(())
}

/// The recorded lists with roles first.
fn compare_buffers(count: u64, seed: u64) -> Result<(), String> {
    let mut tally = lent_asks::Tally::default();
    for sequence in record_roles::all_sequences() {
        let told = |what: Differs| format!("recorded with roles: {what}");
        lent_asks::replay(&sequence, &mut tally).map_err(told)?;
    }
    for number in 0..count {
        let told = |what: Differs| format!("buffer {number} of seed {seed}: {what}");
        lent_asks::compare(seed, number, &mut tally).map_err(told)?;
    }
    println!(
        "{count} buffers of any numbers of seed {seed} and the recorded lists with roles, \
         {tally}: no difference"
    );
    Ok(())
}
