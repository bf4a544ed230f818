//! Damaged records: each of the refusals of a record, and two at once.

use super::Maker;
use crate::sheet::{self, RECORD_BYTES, Shape};

/// Commands past the last of each group, and some far from any.
const NO_COMMANDS: [u32; 12] = [
    0x04, 0x0f, 0x29, 0x34, 0x3f, 0x44, 0x4f, 0x55, 0x5f, 0x62, 0x80, 0xff,
];

/// Records that name registers and have unused bytes.
const WITH_BOTH: [u32; 6] = [0x10, 0x1f, 0x30, 0x33, 0x40, 0x43];

impl Maker {
    /// Changes a record so that it is refused, most often.
    pub fn damage(&mut self, bytes: &mut [u8; RECORD_BYTES]) {
        let place = self.random.below(RECORD_BYTES as u32) as usize;
        match self.random.below(10) {
            0 => bytes[place] ^= 1 << self.random.below(8),
            1 => bytes[place] = self.byte(),
            2 | 3 => self.use_an_unused_byte(bytes),
            4 | 5 => self.name_a_register_at_its_limit(bytes),
            6 => {
                *bytes = [0x33, self.register() as u8, 0, self.byte(), self.byte()];
                if self.random.chance(60) {
                    self.name_a_register_at_its_limit(bytes);
                }
            }
            7 => bytes[0] = self.random.pick(&NO_COMMANDS) as u8,
            8 => {
                *bytes = [self.random.pick(&WITH_BOTH) as u8, 0, 0, 0, 0];
                self.name_a_register_at_its_limit(bytes);
                if self.random.chance(70) {
                    self.use_an_unused_byte(bytes);
                }
            }
            _ => *bytes = std::array::from_fn(|_| self.byte()),
        }
    }

    /// Makes any byte.
    pub fn byte(&mut self) -> u8 {
        self.random.bits() as u8
    }

    /// Sets an unused byte of the record, or of another if it has none.
    fn use_an_unused_byte(&mut self, bytes: &mut [u8; RECORD_BYTES]) {
        if shape(bytes).unused().is_empty() {
            *bytes = [0; RECORD_BYTES];
        }
        let unused = shape(bytes).unused();
        let place = unused[self.random.below(unused.len() as u32) as usize];
        bytes[place] = self.random.pick(&[1, 1, 0x80, 0xff]) as u8;
    }

    /// Sets a register of the record, or of another if it names none, to its limit or past it.
    fn name_a_register_at_its_limit(&mut self, bytes: &mut [u8; RECORD_BYTES]) {
        if shape(bytes).registers() == 0 {
            *bytes = [0x20, 0, 0, self.byte(), self.byte()];
        }
        let place = 1 + self.random.below(shape(bytes).registers() as u32) as usize;
        bytes[place] = self.limit() as u8;
    }
}

/// Gives the shape of a record, that of a bare one if there is no such command.
fn shape(bytes: &[u8; RECORD_BYTES]) -> Shape {
    sheet::command(bytes[0]).map_or(Shape::Bare, |(_, shape)| shape)
}
