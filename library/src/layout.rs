//! Which numbers a buffer consists of.

use crate::ffi;

/// The layout of worlds, senders, screens and what is passed along as numbers. It changes when
/// one of these numbers gets another place or meaning: numbers that were kept under another
/// layout are not for this version.
pub const LAYOUT: u32 = ffi::LAYOUT;

/// Stops where the library that was linked has another layout than these declarations: nothing
/// that it does could be trusted. What makes a world, a sender or a screen asks it, also of numbers
/// that were kept.
#[inline]
pub(crate) fn assert_layout() {
    let linked = ffi::ponguriena_layout();
    assert!(
        linked == LAYOUT,
        "libponguriena.a has layout {linked}, and this crate is for layout {LAYOUT}"
    );
}
