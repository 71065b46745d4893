//! The port beside document 01's world over libtw2: what is compared, and on what.

pub mod any_numbers;
pub mod arguments;
pub mod differs;
pub mod lent_asks;
pub mod receives;
pub mod replay;
pub mod searches;
pub mod send_calls;
pub mod send_replay;
pub mod sequences;
#[cfg(test)]
mod tests;
pub mod trials;
