//! What a step publishes.

use crate::slot::SEATS;
use libtw2_gamenet::snap_obj::CharacterCore;

#[derive(Clone, Copy)]
pub struct Published {
    /// The record of each id that was present.
    pub records: [Option<CharacterCore>; SEATS],
    /// Whether each id was removed after the records were taken.
    pub removed: [bool; SEATS],
}

/// What every call but a step publishes, and a step with nobody.
pub const NOTHING: Published = Published {
    records: [None; SEATS],
    removed: [false; SEATS],
};

impl Published {
    /// Who was removed, by rising id.
    pub fn removed_ids(&self) -> impl Iterator<Item = i32> {
        let ids = (0..).zip(self.removed);
        ids.filter_map(|(id, removed)| removed.then_some(id))
    }
}
