//! The list of places that the lines share.

use crate::buffers::{BLOCK_WORDS, Block};

/// Entries of the list, 64 more than the longest sheet has records.
pub const HELD_ENTRIES: usize = 4_160;

/// The entries of 16 bits, all zeros at first.
pub struct HeldList(Vec<u16>);

impl HeldList {
    /// Makes them.
    pub fn new() -> Self {
        Self(vec![0; HELD_ENTRIES])
    }

    /// Fills all entries anew and gives the first of them.
    pub fn lent(&mut self, length: u32, fill: u16) -> &mut [u16] {
        self.0.fill(fill);
        &mut self.0[..length as usize]
    }

    /// Gives a part of the entries.
    pub fn block(&self, at: u32) -> Block {
        let part = &self.0[at as usize..][..BLOCK_WORDS];
        std::array::from_fn(|place| part[place].into())
    }
}
