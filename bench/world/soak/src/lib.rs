//! A server's very long life through the C interface, and worse: what is lent has fences around
//! it, and what a call answers and leaves is compared with the harness.

mod areas;
mod asks;
pub mod course;
pub mod fence;
// The crate keeps its declarations to itself, and these are to be called as C would.
#[allow(dead_code)]
#[path = "../../../../library/src/ffi.rs"]
mod ffi;
mod fresh;
pub mod function;
mod life;
mod maps;
mod memcheck;
mod packs;
mod played;
mod screens;
mod searches;
mod sends;
mod server;
mod soak;
mod stops;
pub mod tally;
#[cfg(test)]
mod tests;
mod trials;
mod turns;

pub use soak::Soak;
pub use stops::hush;
