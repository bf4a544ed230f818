//! The sheet, the load answers and the table of special registers that runs share.

use crate::rows::Given;
use crate::runner::Task;

/// Words of a line that fills a part of a buffer, and the bytes they are.
pub const BLOCK_WORDS: usize = 64;
pub const BLOCK_BYTES: usize = 4 * BLOCK_WORDS;

/// Bytes of the sheet's buffer; a sheet may be longer than the longest accepted.
pub const SHEET_BYTES: usize = 81 * BLOCK_BYTES;
/// Load answers in theirs.
pub const ANSWERS: usize = 4_096;
/// Words in the table of special registers, 64 past the last that has a number.
pub const TABLE_WORDS: usize = 65_600;

/// The words of one such line.
pub type Block = [u32; BLOCK_WORDS];

/// The three buffers, all zeros at first.
pub struct Buffers {
    pub sheet: Vec<u8>,
    pub answers: Vec<u32>,
    pub table: Vec<u32>,
}

impl Buffers {
    /// Makes all three.
    pub fn new() -> Self {
        Self {
            sheet: vec![0; SHEET_BYTES],
            answers: vec![0; ANSWERS],
            table: vec![0; TABLE_WORDS],
        }
    }

    /// Puts words into the sheet, high byte first.
    pub fn put_sheet(&mut self, at: u32, block: &Block) {
        let part = &mut self.sheet[at as usize..][..BLOCK_BYTES];
        for (bytes, word) in part.as_chunks_mut().0.iter_mut().zip(block) {
            *bytes = word.to_be_bytes();
        }
    }

    /// Puts load answers.
    pub fn put_answers(&mut self, at: u32, block: &Block) {
        self.answers[at as usize..][..BLOCK_WORDS].copy_from_slice(block);
    }

    /// Puts words of special registers.
    pub fn put_table(&mut self, at: u32, block: &Block) {
        self.table[at as usize..][..BLOCK_WORDS].copy_from_slice(block);
    }

    /// Gives the words that put_sheet takes.
    pub fn sheet_block(&self, at: usize) -> Block {
        let (words, _) = self.sheet[at..][..BLOCK_BYTES].as_chunks();
        std::array::from_fn(|place| u32::from_be_bytes(words[place]))
    }

    /// Gives the answers that put_answers takes.
    pub fn answer_block(&self, at: usize) -> Block {
        std::array::from_fn(|place| self.answers[at + place])
    }

    /// Gives the words that put_table takes.
    pub fn table_block(&self, at: usize) -> Block {
        std::array::from_fn(|place| self.table[at + place])
    }

    /// Gives the sheet of so many bytes.
    pub fn first_of_sheet(&self, length: u32) -> &[u8] {
        &self.sheet[..length as usize]
    }

    /// Gives what a run is given besides the state.
    pub fn task(&self, given: &Given) -> Task<'_> {
        Task {
            sheet: self.first_of_sheet(given.sheet_length),
            answers: &self.answers[..given.answer_count as usize],
            table: &self.table[..given.table_length as usize],
            limit: given.limit,
        }
    }
}
