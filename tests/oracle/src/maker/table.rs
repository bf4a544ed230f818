//! Tables of special registers around the numbers that a sheet names.

use super::Maker;
use crate::sheet;

/// Lengths at each limit, and those that hold every number.
const LENGTHS: [u32; 6] = [0, 0, 1, 64, 256, 65_535];
const WHOLE: [u32; 4] = [65_536, 65_536, 65_600, 65_599];
/// MFSR records of a sheet whose words are chosen.
const CHOSEN: usize = 4;

impl Maker {
    /// Chooses words for the special registers that the sheet names first, and for others that a wrong place would be.
    pub fn change_the_table(&mut self) {
        for number in self.named_registers() {
            for place in [number.saturating_sub(1), number + 1, number & 0xff, number] {
                self.wanted.table[place as usize] = self.answer_word();
            }
        }
    }

    /// Chooses the length of the table: around a number that the sheet names, at a limit, or any.
    pub fn table_length(&mut self) -> u32 {
        let named = self.named_registers();
        match self.random.below(16) {
            0..6 if !named.is_empty() => self.random.pick(&named) + self.random.below(2),
            6 => self.random.pick(&LENGTHS),
            7 => self.random.below(65_601),
            8 => self.random.below(64),
            _ => self.random.pick(&WHOLE),
        }
    }

    /// Gives the numbers of the special registers that the first MFSR records of the wanted sheet name.
    fn named_registers(&self) -> Vec<u32> {
        let (records, _) = self.wanted.sheet.as_chunks();
        let records = &records[..self.records_in_use as usize];
        let named = records.iter().filter_map(sheet::special_register);
        named.take(CHOSEN).collect()
    }
}
