//! Logs to read one event of: entries in a row, some of them damaged or cut short.

use super::Maker;
use crate::card_log::{Access, Event};
use crate::case::Case;
use crate::rows::{LOG_BYTES, ReadLog, words_of};

/// Registers and widths at their limits and past them.
const REGISTERS: [u32; 10] = [0, 1, 1, 2, 16, 31, 31, 32, 33, 255];
const WIDTHS: [u32; 11] = [0, 0, 1, 2, 4, 4, 3, 5, 8, 16, 255];
/// Bytes that are no command.
const NO_COMMANDS: [u32; 6] = [0x7f, 0x84, 0, 0xff, 0x01, 0x88];
/// The most bytes of an entry.
const LONGEST: usize = 10;

/// Bytes with entries in a row, and where each of these begins and ends.
struct Entries {
    bytes: [u8; LOG_BYTES],
    places: Vec<(usize, usize)>,
}

impl Maker {
    /// Makes a log and a place, most often that of an entry.
    pub fn reads(&mut self) -> Case {
        let mut entries = self.entries();
        let chosen = self.random.below(entries.places.len() as u32) as usize;
        let (start, end) = entries.places[chosen];
        if self.random.chance(30) {
            self.damage_an_entry(&mut entries.bytes[start..end]);
        }
        let length = match self.random.below(10) {
            0..3 => start as u32 + self.random.below((end - start) as u32 + 1),
            3 | 4 => end as u32,
            5 => self.random.below(LOG_BYTES as u32 + 1),
            _ => LOG_BYTES as u32,
        };
        let place = self.place_near(start as u64, length.into());
        let words = words_of(&entries.bytes);
        Case::Reads(ReadLog {
            length,
            place,
            words,
        })
    }

    /// Makes entries in a row from some place on, with any bytes before and behind.
    fn entries(&mut self) -> Entries {
        let mut bytes = std::array::from_fn(|_| self.byte());
        let mut places = Vec::new();
        let mut start = self.random.below(16) as usize;
        while start + LONGEST <= LOG_BYTES {
            let mut entry = Vec::new();
            self.event().put(&mut entry);
            let end = start + entry.len();
            bytes[start..end].copy_from_slice(&entry);
            places.push((start, end));
            start = end;
        }
        Entries { bytes, places }
    }

    /// Makes an event, with a register or width at a limit or past it most often.
    fn event(&mut self) -> Event {
        let access = Access {
            address: self.address(),
            width: self.random.pick(&WIDTHS),
            word: self.word(),
        };
        match self.random.below(4) {
            0 => Event::Retired(access.address),
            1 => Event::Written(self.random.pick(&REGISTERS), access.word),
            2 => Event::Loaded(access),
            _ => Event::Stored(access),
        }
    }

    /// Changes one byte of an entry, the command most often.
    fn damage_an_entry(&mut self, entry: &mut [u8]) {
        match self.random.below(4) {
            0 => entry[self.random.below(entry.len() as u32) as usize] = self.byte(),
            1 => entry[0] = 0x80 + self.random.below(4) as u8,
            2 => entry[0] = self.byte(),
            _ => entry[0] = self.random.pick(&NO_COMMANDS) as u8,
        }
    }

    /// Chooses the place that is read: an entry's most often, else one around the end or far past it.
    fn place_near(&mut self, start: u64, length: u64) -> u64 {
        match self.random.below(20) {
            0 => (length + u64::from(self.random.below(5))).saturating_sub(2),
            1 => u64::from(self.random.below(LOG_BYTES as u32 + 9)),
            2 => 1 << 32 | start,
            3 => u64::MAX - u64::from(self.random.below(2)),
            _ => start,
        }
    }
}
