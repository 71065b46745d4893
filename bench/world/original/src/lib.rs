//! `world` of libtw2 as published but for document 01's stand-ins, and its characters as plain numbers.

// What is included is not edited here, so its style is not judged either.
#![allow(clippy::all)]

mod angle_method;
mod records;
mod state;

pub use angle_method::find_angles_by;
pub use records::{CORE_NUMBERS, INPUT_NUMBERS, core_numbers, core_of, input_numbers, input_of};
pub use state::{STATE_WORDS, State, hook_of};

include!(concat!(env!("OUT_DIR"), "/world.rs"));
