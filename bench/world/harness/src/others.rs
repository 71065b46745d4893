//! The slots but one, by rising id, each as it stands when it is asked for.

use crate::slot::{SEATS, Slot, Slots};
use original::{Character, CharacterId, OtherCharacters};
use std::cell::Cell;

pub struct Others<'a> {
    /// The one that is left out.
    id: usize,
    slots: &'a [Cell<Slot>; SEATS],
}

impl<'a> Others<'a> {
    pub fn new(id: usize, slots: &'a mut Slots) -> Others<'a> {
        let slots = Cell::from_mut(slots).as_array_of_cells();
        Others { id, slots }
    }
}

impl OtherCharacters for Others<'_> {
    /// The id to look at next.
    type Iter = usize;

    fn is_self(&self, cid: CharacterId) -> bool {
        cid.0 as usize == self.id
    }

    fn get(&self, cid: CharacterId) -> Character {
        assert!(!self.is_self(cid));
        let slot = self.slots[cid.0 as usize].get();
        assert!(slot.present);
        slot.character
    }

    fn modify<F: FnOnce(&mut Character)>(&self, cid: CharacterId, f: F) {
        let mut character = self.get(cid);
        f(&mut character);
        let slot = &self.slots[cid.0 as usize];
        slot.set(Slot {
            character,
            ..slot.get()
        });
    }

    fn iter(&self) -> usize {
        0
    }

    fn next(&self, iter: &mut usize) -> Option<(CharacterId, Character)> {
        let id = (*iter..SEATS).find(|&id| id != self.id && self.slots[id].get().present)?;
        *iter = id + 1;
        Some((CharacterId(id as u32), self.slots[id].get().character))
    }
}
