//! What a Normal instruction does; its kind is the position in the enum that tests/CASES.md gives.

use super::arithmetic;
use super::effect::{Effect, by_offset, read};
use crate::cpu_pipeline::harness::Numbers;
use crate::rows::{Begin, NORMAL, SHORT};

/// Gives the effect of a Normal instruction over a table of special registers, jumps apart.
pub fn effect(values: &Begin, instruction: &Numbers, table: &[u32]) -> Effect {
    let Numbers {
        variant,
        fields: [a, b, c],
    } = *instruction;
    let read = |register| read(values, register);
    let taken = Effect::Go(by_offset(values, c), NORMAL);
    match variant {
        // NOP, ST, STB, STH
        0x00 | 0x02 | 0x22 | 0x23 => Effect::On,
        // LD, LDB, LDH
        0x01 | 0x20 | 0x21 => Effect::Load(a),
        // ADDI
        0x04 => Effect::Put(a, read(b).wrapping_add(c)),
        // BEQ, BNE
        0x07 if read(a) == read(b) => taken,
        0x08 if read(a) != read(b) => taken,
        0x07 | 0x08 => Effect::On,
        // CPUID
        0x11 => Effect::Cpuid,
        // HALT and MFSR, privileged instructions in user mode
        0x12 | 0x29 if values.user => Effect::Stop,
        0x12 => Effect::Halt,
        0x29 => special_word(table, b).map_or(Effect::Stop, |word| Effect::Put(a, word)),
        // LDIL, LDIH
        0x24 => Effect::Put(a, (read(a) & 0xffff_0000) | b),
        0x25 => Effect::Put(a, (read(a) & 0x0000_ffff) | (b << 16)),
        // Unknown, IRET, SYSCALL, MTSR
        0x26 | 0x27 | 0x28 | 0x2a => Effect::Stop,
        _ => match arithmetic::word(variant, read(b), read(c)) {
            Some(word) => Effect::Put(a, word),
            None => jump(values, variant, a),
        },
    }
}

/// Gives the word of a special register, or nothing for a number outside the table.
fn special_word(table: &[u32], number: u32) -> Option<u32> {
    let place = number as usize;
    (place < table.len()).then(|| table[place])
}

/// Gives the effect of a jump, whose only field is an offset or a register.
fn jump(values: &Begin, variant: u32, field: u32) -> Effect {
    let near = by_offset(values, field);
    let far = || read(values, field);
    match variant {
        // JMP, JAL, JMPS, JALS
        0x09 => Effect::Go(near, NORMAL),
        0x0a => Effect::Link(near, NORMAL),
        0x0c => Effect::Go(near, SHORT),
        0x0d => Effect::Link(near, SHORT),
        // JR, JALR, JRS, JALRS
        0x0b => Effect::Go(far(), NORMAL),
        0x0f => Effect::Link(far(), NORMAL),
        0x0e => Effect::Go(far(), SHORT),
        0x10 => Effect::Link(far(), SHORT),
        _ => unreachable!("every other kind has its arm"),
    }
}
