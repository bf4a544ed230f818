//! Checks for trades: sheets dense in registers that nearly meet, and lists around the length that is needed.

use super::Maker;
use super::run::{IN_A_LINE, MOST};
use crate::buffers::BLOCK_WORDS;
use crate::case::Case;
use crate::rows::LentList;
use crate::sheet::{self, COMMANDS, RECORD_BYTES};
use crate::trades::{self, HELD_ENTRIES};
use std::collections::BTreeSet;

/// Commands whose records may move and that are not among 10 to 1F.
const MOVING: [u32; 5] = [0x00, 0x20, 0x20, 0x30, 0x31];
/// Commands next to those of records that may move.
const NEXT_TO_MOVING: [u32; 8] = [0x01, 0x02, 0x21, 0x28, 0x32, 0x33, 0x40, 0x61];
/// Lengths of a list around the longest need.
const LENGTHS: [u32; 9] = [
    4_093, 4_094, 4_095, 4_095, 4_095, 4_096, 4_097, 4_159, 4_160,
];
/// The last place from which a line shows the list.
const LAST_SHOWN: u32 = (HELD_ENTRIES - BLOCK_WORDS) as u32;

impl Maker {
    /// Appends the next check and the lines that it needs and that show its list; the records of a small one keep to a
    /// line.
    pub fn trades(&mut self, small: bool, out: &mut Vec<Case>) {
        if self.records_in_use == 0 || self.random.chance(75) {
            self.next_sheet_to_trade_in(small);
        }
        let sheet_length = self.sheet_length(small);
        let restored = self.damage_the_sheet(small, sheet_length);
        self.send_sheet(sheet_length, out);
        let [need, count] = self.need_and_count(sheet_length);
        let lent = LentList {
            sheet_length,
            length: self.list_length(need, count),
            fill: self.fill(need),
        };
        out.push(Case::Trades(lent));
        self.show_the_list(lent.length, count, out);
        self.restore(restored);
    }

    /// Makes the records of another sheet.
    fn next_sheet_to_trade_in(&mut self, small: bool) {
        let count = match self.random.below(400) {
            0..3 if !small => MOST,
            3..15 if !small => 200 + self.random.below(101),
            0..60 => self.random.below(5),
            60..90 => IN_A_LINE - self.random.below(3),
            _ => self.random.below(41),
        };
        let empty = self.random.pick(&[0, 0, 0, 0, 5, 5, 5, 5, 5, 20, 60, 100]);
        for place in 0..count {
            *self.wanted_record(place as usize) = self.record_to_trade(empty);
        }
        self.records_in_use = count;
    }

    /// Makes a valid record, most often of a command that may move, over few registers; so many in a hundred are NOPs.
    fn record_to_trade(&mut self, empty: u32) -> [u8; RECORD_BYTES] {
        let command = match self.random.below(20) {
            _ if self.random.chance(empty) => 0,
            0 => u32::from(COMMANDS[self.random.below(COMMANDS.len() as u32) as usize].0),
            1 | 2 => self.random.pick(&NEXT_TO_MOVING),
            3..9 => self.random.pick(&MOVING),
            _ => 0x10 + self.random.below(16),
        };
        let command = command as u8;
        let (_, shape) = sheet::command(command).expect("a command that there is");
        let mut bytes = self.any_operands(command, shape);
        for register in &mut bytes[1..=shape.registers()] {
            *register = self.register() as u8;
        }
        bytes
    }

    /// Gives how many entries a list for the wanted sheet needs, and how many places it gets where it is long enough.
    fn need_and_count(&self, sheet_length: u32) -> [u32; 2] {
        let sheet = self.wanted.first_of_sheet(sheet_length);
        let count = match trades::sheet_refused(sheet) {
            0 => trades::listed(sheet).len(),
            _ => 0,
        };
        [trades::neighbours(sheet) as u32, count as u32]
    }

    /// Chooses how much of the list is lent: around the need most often, or as much as the places take.
    fn list_length(&mut self, need: u32, count: u32) -> u32 {
        let length = match self.random.below(20) {
            0..3 => need.saturating_sub(1),
            3..8 => need,
            8 | 9 => need + 1,
            10 => need + 2 + self.random.below(70),
            11 => count,
            12 | 13 => self.random.below(need + 1),
            14 => 0,
            15..19 => self.random.pick(&LENGTHS),
            _ => self.random.below(HELD_ENTRIES as u32 + 1),
        };
        length.min(HELD_ENTRIES as u32)
    }

    /// Chooses what the list is filled with: the number of a place most often.
    fn fill(&mut self, need: u32) -> u32 {
        match self.random.below(8) {
            0 | 1 => 0,
            2 => self.random.pick(&[1, 4_095, 4_096, 0x8000, 0xffff]),
            3 => self.random.below(0x1_0000),
            _ => self.random.below(need + 2),
        }
    }

    /// Appends lines that show the list: the places, what stands around the lent end, and some of what stands behind;
    /// now and then all up to 64 entries behind the lent end.
    fn show_the_list(&mut self, lent: u32, count: u32, out: &mut Vec<Case>) {
        let words = BLOCK_WORDS as u32;
        let end = if self.random.chance(12) {
            lent + words
        } else {
            count
        };
        let behind = self.random.below(LAST_SHOWN + 1);
        let more = [lent.saturating_sub(words / 2), behind, LAST_SHOWN];
        let more = &more[..1 + self.random.below(3) as usize];
        let lines = (0..=end).step_by(BLOCK_WORDS).chain(more.iter().copied());
        let places: BTreeSet<u32> = lines.map(|at| at.min(LAST_SHOWN)).collect();
        out.extend(places.into_iter().map(Case::TradesShow));
    }
}
