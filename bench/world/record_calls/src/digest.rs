//! Numbers as one word, among them those of a world and of what a step publishes.

use harness::encoding::{encoded, encoded_records};
use harness::{Published, World};
use reference::Bits;

pub const FACTOR: u64 = 16_777_619;

/// The largest prime below 2^32.
pub const MODULUS: u64 = 4_294_967_291;

pub fn world_digest(world: &World) -> u32 {
    digest(&encoded(world))
}

/// The ids of those who were removed follow the records. Where nobody was it is the
/// digest of the records alone.
pub fn published_digest(published: &Published) -> u32 {
    let mut numbers = encoded_records(published).to_vec();
    numbers.extend(published.removed_ids());
    digest(&numbers)
}

pub fn digest(numbers: &[i32]) -> u32 {
    let sum = |digest, number: &i32| (digest * FACTOR + u64::from(number.to_pattern())) % MODULUS;
    numbers.iter().fold(0, sum) as u32
}
