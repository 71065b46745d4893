//! The world of document 01 over the characters of libtw2: its slots, its calls and their refusals.

mod call;
pub mod draw;
pub mod encoding;
mod others;
mod physics;
mod published;
mod refusal;
pub mod rewriting;
pub mod roles;
pub mod search;
pub mod sending;
mod slot;
#[cfg(test)]
mod tests;
pub mod trial;
pub mod tunings;
mod walks;
mod world;

pub use call::{CALL_NUMBERS, Call};
pub use physics::Rules;
pub use published::{NOTHING, Published};
pub use refusal::Refusal;
pub use slot::{SEATS, Slot, Slots};
pub use world::{LONGEST_SIDE, World};
