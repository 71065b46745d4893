//! Compares what the port passes along to screens, and what its screens make of it, with
//! the harness's own reading of change request 6: every answer, all that is passed along,
//! the world, the sender, the screen and what it shows, after each call. Sequences of
//! calls go through the safe `Sender` and `Screen`; any numbers go through the buffers.
//! Arguments: how many sequences, how many buffers, and a seed.

use compare_world::arguments::{Arguments, arguments};
use compare_world::differs::Differs;
use compare_world::send_replay::{Tally, replay};
use compare_world::{send_calls, sequences};
use record_calls::Sequence;

/// One in so many goes on for as many steps, so that who does nothing is sent again.
const LONG_EVERY: u64 = 16;
const LONG: usize = 170;

fn main() -> Result<(), String> {
    let Arguments {
        sequences,
        buffers,
        seed,
    } = arguments()?;
    compare_sequences(sequences, seed)?;
    compare_buffers(buffers, seed)
}

/// The recorded ones first.
fn compare_sequences(count: u64, seed: u64) -> Result<(), String> {
    let mut tally = Tally::default();
    let mut recorded = record_calls::all_sequences();
    recorded.extend(record_sending::all_sequences());
    for sequence in recorded {
        replay(&sequence, &mut tally).map_err(|what| format!("recorded: {what}"))?;
    }
    for number in 0..count {
        let told = |what: Differs| format!("sequence {number} of seed {seed}: {what}");
        replay(&drawn(seed, number), &mut tally).map_err(told)?;
    }
    println!("{count} sequences of seed {seed} and the recorded ones, {tally}: no difference");
    Ok(())
}

fn drawn(seed: u64, number: u64) -> Sequence {
    let sequence = sequences::drawn(seed, number);
    match number % LONG_EVERY {
        0 => sequence.steps(LONG),
        _ => sequence,
    }
}

fn compare_buffers(count: u64, seed: u64) -> Result<(), String> {
    let mut tally = send_calls::Tally::default();
    for number in 0..count {
        let told = |what: Differs| format!("buffer {number} of seed {seed}: {what}");
        send_calls::compare(seed, number, &mut tally).map_err(told)?;
    }
    println!("{count} buffers of any numbers of seed {seed}, {tally}: no difference");
    Ok(())
}
