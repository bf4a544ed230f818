//! Asks the original and turns its answers into plain numbers.

pub mod arithmetic;
mod encoding;
mod feature_word;
mod from_core;
mod instruction_numbers;
mod into_core;
pub mod operands;
mod origin;
pub mod original;
mod parts;
mod register_block;
mod retired;
mod short_numbers;
mod special_register;
mod tick;
mod unknown_words;

use super::*;

/// A kind's position in its enum and its fields in the enum's order, signed ones as 32-bit words.
#[derive(Debug, Clone, Copy, PartialEq, Eq)]
pub struct Numbers {
    pub variant: u32,
    pub fields: [u32; 3],
}

/// Makes numbers, with 0 for the fields that are missing.
fn numbers(variant: u32, fields: &[u32]) -> Numbers {
    let mut all = [0; 3];
    all[..fields.len()].copy_from_slice(fields);
    Numbers {
        variant,
        fields: all,
    }
}

/// Gives a signed field as a 32-bit word.
fn signed(field: impl Into<i32>) -> u32 {
    field.into() as u32
}

/// Makes a core over an empty bus, with every register 0 and every latch empty.
fn fresh_core() -> PipelineCpu {
    PipelineCpu::new(Bus::default())
}

/// Gives what the original decodes a halfword to.
pub fn short_numbers_of(halfword: u16) -> Numbers {
    short_numbers::of(PipelineCpu::decode_short(halfword))
}

/// Gives a fetched instruction as it stands before decode.
fn fetched(raw: RawInstr) -> IfId {
    let mode = match raw {
        RawInstr::Normal(_) => InstructionMode::Normal,
        RawInstr::Short(_) => InstructionMode::Short,
    };
    IfId {
        valid: true,
        pc: 0,
        mode,
        raw,
        fetch_fault: None,
    }
}
