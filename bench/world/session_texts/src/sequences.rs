//! The recorded sequences of calls as texts.

use crate::written::sequence_text;
use record_calls::{session_sequences, too_far_sequences};
use reference::Xorshift;
use std::sync::LazyLock;
use tile_map::draw::below;

static RECORDED: LazyLock<Vec<Vec<u8>>> =
    LazyLock::new(|| session_sequences().iter().map(sequence_text).collect());

static TOO_FAR: LazyLock<Vec<Vec<u8>>> =
    LazyLock::new(|| too_far_sequences().iter().map(sequence_text).collect());

pub fn recorded(random: &mut Xorshift) -> Vec<u8> {
    RECORDED[below(random, RECORDED.len())].clone()
}

/// With walks that are long.
pub fn too_far(random: &mut Xorshift) -> Vec<u8> {
    TOO_FAR[below(random, TOO_FAR.len())].clone()
}
