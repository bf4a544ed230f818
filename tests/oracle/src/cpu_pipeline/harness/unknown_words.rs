//! Words that stand in for an instruction that the original decodes no word to, above all Unknown 0.

use super::{Instruction, Numbers, PipelineCpu, encoding, instruction_numbers};
use crate::rows::{Decoded, Offer, Raw, State};

/// Position of Unknown in the enum.
pub const UNKNOWN: u32 = 0x26;

/// A word that the original decodes to Unknown, and so do those behind it.
const FIRST_WORD: u32 = 0x9800_0000;

/// Words in use by the latches, and the instructions that others stand in for.
#[derive(Default)]
pub struct UnknownWords {
    in_use: [u32; 4],
    stand_ins: [Option<(u32, Numbers)>; 2],
}

impl UnknownWords {
    /// Notes the Unknown words that a tick on this state can meet.
    pub fn of(state: &State, offer: &Offer) -> Self {
        let normal = |decoded: &Decoded| match decoded {
            Decoded::Normal(instruction) => Some(*instruction),
            Decoded::Short(_) => None,
        };
        let fetched = match state.if_id.raw {
            Raw::Normal(instruction) => Some(instruction),
            Raw::Short(_) => None,
        };
        let offered = match offer {
            Offer::Normal(instruction) => Some(*instruction),
            Offer::Nothing | Offer::Short(_) => None,
        };
        let latches = [&state.id_ex.decoded, &state.ex_mem.decoded].map(normal);
        let all = [fetched, offered, latches[0], latches[1]];
        Self {
            in_use: all.map(|instruction| instruction.map_or(0, payload)),
            stand_ins: [None; 2],
        }
    }

    /// Gives the word that decodes to an instruction, or one that stands in for it.
    pub fn word_of(&mut self, instruction: Numbers) -> u32 {
        if let Some(word) = encoding::word_of(instruction) {
            return word;
        }
        let known = |word: &u32| self.in_use.contains(word) || self.meant_by(*word).is_some();
        let word = (FIRST_WORD..)
            .find(|word| !known(word))
            .expect("more words than latches");
        let place = usize::from(self.stand_ins[0].is_some());
        self.stand_ins[place] = Some((word, instruction));
        word
    }

    /// Gives the numbers of an instruction that the original decoded.
    pub fn numbers_of(&self, instruction: Instruction) -> Numbers {
        match instruction {
            Instruction::Unknown(word) => self.meant_by(word),
            _ => None,
        }
        .unwrap_or_else(|| instruction_numbers::of(instruction))
    }

    /// Gives the instruction that a word stands in for.
    fn meant_by(&self, word: u32) -> Option<Numbers> {
        let mut pairs = self.stand_ins.iter().flatten();
        pairs.find(|pair| pair.0 == word).map(|pair| pair.1)
    }
}

/// Gives Unknown's word, or 0 for any other instruction.
fn payload(instruction: Numbers) -> u32 {
    match instruction {
        Numbers {
            variant: UNKNOWN,
            fields: [high, low, _],
        } => (high << 16) | low,
        _ => 0,
    }
}

/// Gives the instruction that numbers within bounds stand for.
pub fn instruction_of(numbers: Numbers) -> Instruction {
    if numbers.variant == UNKNOWN {
        return Instruction::Unknown(payload(numbers));
    }
    PipelineCpu::decode(encoding::word_of(numbers).expect("numbers within bounds"))
}
