//! A table by block.

/// A value for each block, all alike at first. A block that was never written costs the four bytes of its place.
pub struct BlockTable<T> {
    first: T,
    /// By block: 0 where it was never written, else its value's place in `written`, from 1.
    places: Vec<u32>,
    /// With room for all blocks from the beginning.
    written: Vec<T>,
}

impl<T: Copy> BlockTable<T> {
    pub fn new(blocks: u32, first: T) -> BlockTable<T> {
        BlockTable { first, places: vec![0; blocks as usize], written: Vec::with_capacity(blocks as usize) }
    }

    pub fn get(&self, block: u32) -> &T {
        match self.places[block as usize] {
            0 => &self.first,
            place => &self.written[place as usize - 1],
        }
    }

    /// The block's value, to be written.
    pub fn get_mut(&mut self, block: u32) -> &mut T {
        let place = &mut self.places[block as usize];
        if *place == 0 {
            self.written.push(self.first);
            *place = self.written.len() as u32;
        }
        &mut self.written[*place as usize - 1]
    }
}
