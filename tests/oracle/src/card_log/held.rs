//! The log that the lines of a list share.

use super::reader::{self, Reading};
use super::written::Written;
use crate::buffers::{BLOCK_BYTES, Block};
use crate::rows::State;

/// Bytes of the log, and what each is at first.
pub const HELD_BYTES: usize = 4_096;
const FILL: u8 = 0xff;

/// The bytes, how many of them are lent, the first free place, and what was written since it was chosen.
pub struct HeldLog {
    pub bytes: Vec<u8>,
    pub length: u32,
    pub free: u64,
    pub written: Written,
}

impl HeldLog {
    /// Begins with nothing lent.
    pub fn new(state: &State) -> Self {
        Self::lent(0, 0, state)
    }

    /// Fills all bytes anew and lends some of them, before ticks on a state.
    pub fn lent(length: u32, free: u64, state: &State) -> Self {
        Self {
            bytes: vec![FILL; HELD_BYTES],
            length,
            free,
            written: Written::new(free, state),
        }
    }

    /// Reads one event of the first bytes.
    pub fn read(&self, length: u32, place: u64) -> Reading {
        reader::read(&self.bytes[..length as usize], place)
    }

    /// Gives a part of the bytes as words, high byte first.
    pub fn block(&self, at: u32) -> Block {
        let (words, _) = self.bytes[at as usize..][..BLOCK_BYTES].as_chunks();
        std::array::from_fn(|place| u32::from_be_bytes(words[place]))
    }
}
