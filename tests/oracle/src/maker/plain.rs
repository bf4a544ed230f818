//! Cases without a state: fixed ones first, then others by the seed.

use super::{Maker, fixed};
use crate::case::Case;

/// An odd number, so that its multiples, cut to 16 bits, are all halfwords in a mixed order.
const HALFWORD_STEP: u32 = 0x9e37;

impl Maker {
    /// Makes a command and two words, now and then with no such command.
    pub fn arithmetic(&mut self) -> Case {
        let number = self.arithmetic_made;
        self.arithmetic_made += 1;
        let given = fixed::arithmetic(number).unwrap_or_else(|| {
            let command = match self.random.below(20) {
                0 => self.random.pick(&fixed::OTHER_COMMANDS),
                _ => 0x10 + self.random.below(16),
            };
            [command, self.word(), self.word()]
        });
        Case::Arithmetic(given)
    }

    /// Makes a halfword; 65,536 in a row are all of them.
    pub fn halfword_to_decode(&mut self) -> Case {
        let number = self.halfwords_made;
        self.halfwords_made += 1;
        Case::Halfword(number.wrapping_mul(HALFWORD_STEP) & 0xffff)
    }

    /// Makes a Normal instruction of any kind or a halfword.
    pub fn operands(&mut self) -> Case {
        let number = self.operands_made;
        self.operands_made += 1;
        if let Some(instruction) = fixed::instruction(number) {
            return Case::Operands(instruction);
        }
        if let Some(halfword) = fixed::halfword(number - fixed::INSTRUCTIONS) {
            return Case::ShortOperands(halfword);
        }
        if self.random.chance(60) {
            let variant = self.random.below(fixed::KINDS);
            return Case::Operands(self.normal_of(variant));
        }
        Case::ShortOperands(self.halfword())
    }
}
