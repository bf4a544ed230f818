//! What a short instruction does, by the digits of its halfword (RULES 2.2).

use super::effect::{Effect, by_offset, next, read};
use crate::rows::{Begin, NORMAL, SHORT};

/// Gives the effect of a halfword.
pub fn effect(values: &Begin, halfword: u32) -> Effect {
    let digit = |place: u32| (halfword >> (4 * place)) & 0xf;
    let [rd, rs1, rs2] = [2, 1, 0].map(|place| register(digit(place)));
    let read = |register| read(values, register);
    let byte = halfword & 0xff;
    let way = signed(byte, 8);
    let taken = Effect::Go(by_offset(values, way), SHORT);
    match digit(3) {
        // MOV, ADD, ADDI
        0x0 => Effect::Put(rd, read(rs1)),
        0x1 => Effect::Put(rd, read(rs1).wrapping_add(read(rs2))),
        0x2 => Effect::Put(rd, read(rd).wrapping_add(way)),
        // LD, ST
        0x3 => Effect::Load(rd),
        0x4 => Effect::On,
        // BZ, BNZ
        0x5 if read(rd) == 0 => taken,
        0x6 if read(rd) != 0 => taken,
        0x5 | 0x6 => Effect::On,
        // JR, JAL
        0x7 => Effect::Go(read(rd), SHORT),
        0x8 => Effect::Link(by_offset(values, signed(halfword & 0xfff, 12)), SHORT),
        // LDI
        0x9 => Effect::Put(rd, byte),
        // RET
        0xf => Effect::Go(next(values), NORMAL),
        // Unknown
        _ => Effect::Stop,
    }
}

/// Gives the register that a digit means.
fn register(digit: u32) -> u32 {
    match digit {
        15 => 31,
        _ => digit,
    }
}

/// Gives the word of a signed number of so many bits.
fn signed(number: u32, bits: u32) -> u32 {
    let above = 32 - bits;
    (((number << above) as i32) >> above) as u32
}
