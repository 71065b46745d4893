//! Solo heats: two lists of calls that are the same once the calls for other ids are struck
//! out, and what the port tells of the one id in each step of either.

pub mod heats;
pub mod pairs;
pub mod recorded;
#[cfg(test)]
mod tests;
