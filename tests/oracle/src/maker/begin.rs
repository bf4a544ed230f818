//! What start is given.

use super::Maker;
use crate::rows::Begin;

impl Maker {
    /// Makes registers, a place, a user flag and a feature word.
    pub fn begin(&mut self) -> Begin {
        Begin {
            reg: self.register_values(),
            pc: self.address(),
            mode: self.mode(),
            user: self.random.chance(30),
            features: self.features(),
        }
    }

    /// Makes the values of all registers, R0's field included.
    pub fn register_values(&mut self) -> [u32; 32] {
        let mut values = [0; 32];
        for value in &mut values {
            *value = self.word();
        }
        for register in self.registers {
            if self.random.chance(50) {
                let words = self.words;
                values[register as usize] = self.random.pick(&words);
            }
        }
        values
    }
}
