//! A map whose entries stand in one list, with a table that says where.

use std::collections::TryReserveError;

#[derive(Clone, Copy)]
struct Slot {
    key: u32,
    place: u32,
}

const FREE: Slot = Slot { key: 0, place: u32::MAX };

impl Slot {
    fn is_free(self) -> bool {
        self.place == u32::MAX
    }
}

/// Entries by key. The table is probed from a key's home on, slot by slot, and has no gap between the two.
pub struct IndexMap<V> {
    entries: Vec<(u32, V)>,
    /// As many as a power of two, of which at least a quarter are free; none at first.
    slots: Vec<Slot>,
}

impl<V> IndexMap<V> {
    pub fn new() -> IndexMap<V> {
        IndexMap { entries: Vec::new(), slots: Vec::new() }
    }

    pub fn place_of(&self, key: u32) -> Option<usize> {
        if self.slots.is_empty() {
            return None;
        }
        let slot = self.slots[self.slot_of(key)];
        (!slot.is_free()).then_some(slot.place as usize)
    }

    pub fn get(&self, key: u32) -> Option<&V> {
        self.place_of(key).map(|place| self.at(place))
    }

    pub fn at(&self, place: usize) -> &V {
        &self.entries[place].1
    }

    pub fn at_mut(&mut self, place: usize) -> &mut V {
        &mut self.entries[place].1
    }

    /// Room for one more entry.
    pub fn try_reserve(&mut self) -> Result<(), TryReserveError> {
        self.entries.try_reserve(1)?;
        if 4 * (self.entries.len() + 1) > 3 * self.slots.len() {
            self.grow()?;
        }
        Ok(())
    }

    /// Puts in an entry for a key that has none, in the room that `try_reserve` made.
    pub fn insert(&mut self, key: u32, value: V) {
        let at = self.slot_of(key);
        self.slots[at] = Slot { key, place: self.entries.len() as u32 };
        self.entries.push((key, value));
    }

    /// Takes a key's entry out; the last entry takes its place.
    pub fn swap_remove(&mut self, key: u32) {
        let at = self.slot_of(key);
        let place = self.slots[at].place;
        self.free(at);
        self.entries.swap_remove(place as usize);
        if let Some((moved, _)) = self.entries.get(place as usize) {
            let at = self.slot_of(*moved);
            self.slots[at].place = place;
        }
    }

    fn home_of(&self, key: u32) -> usize {
        let bits = self.slots.len().trailing_zeros();
        (key.wrapping_mul(0x9E37_79B9) >> (32 - bits)) as usize
    }

    /// The slot of the key, or the free one where it would stand.
    fn slot_of(&self, key: u32) -> usize {
        let mask = self.slots.len() - 1;
        let mut at = self.home_of(key);
        while !self.slots[at].is_free() && self.slots[at].key != key {
            at = (at + 1) & mask;
        }
        at
    }

    /// Frees a slot, and moves up those after it that were probed across it.
    fn free(&mut self, mut hole: usize) {
        let mask = self.slots.len() - 1;
        let mut at = (hole + 1) & mask;
        while !self.slots[at].is_free() {
            let home = self.home_of(self.slots[at].key);
            if at.wrapping_sub(home) & mask >= at.wrapping_sub(hole) & mask {
                self.slots[hole] = self.slots[at];
                hole = at;
            }
            at = (at + 1) & mask;
        }
        self.slots[hole] = FREE;
    }

    #[cold]
    fn grow(&mut self) -> Result<(), TryReserveError> {
        let count = (2 * self.slots.len()).max(8);
        let mut slots = Vec::new();
        slots.try_reserve_exact(count)?;
        slots.resize(count, FREE);
        self.slots = slots;
        for place in 0..self.entries.len() {
            let key = self.entries[place].0;
            let at = self.slot_of(key);
            self.slots[at] = Slot { key, place: place as u32 };
        }
        Ok(())
    }
}
