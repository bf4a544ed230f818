//! A Normal instruction as the word that the original decodes back to it.

use super::{Numbers, PipelineCpu, instruction_numbers};

/// Where the fields stand in the word.
#[derive(Clone, Copy)]
enum Shape {
    Bare,
    ThreeRegisters,
    TwoRegisters,
    Branch,
    Offset,
    Register,
    RegisterHalf,
    SourceHalf,
    Whole,
}

use Shape::*;

/// The top six bits and the shape of each kind, in the enum's order.
const CODES: [(u32, Shape); 0x2b] = [
    (0x00, Bare),           // Nop
    (0x01, TwoRegisters),   // Ld
    (0x02, TwoRegisters),   // St
    (0x03, ThreeRegisters), // Add
    (0x04, TwoRegisters),   // Addi
    (0x05, ThreeRegisters), // Sub
    (0x06, ThreeRegisters), // Slt
    (0x07, Branch),         // Beq
    (0x08, Branch),         // Bne
    (0x09, Offset),         // Jmp
    (0x0a, Offset),         // Jal
    (0x0b, Register),       // Jr
    (0x1d, Offset),         // Jmps
    (0x1e, Offset),         // Jals
    (0x1f, Register),       // Jrs
    (0x21, Register),       // Jalr
    (0x22, Register),       // Jalrs
    (0x3e, Bare),           // Cpuid
    (0x3f, Bare),           // Halt
    (0x0c, ThreeRegisters), // And
    (0x0d, ThreeRegisters), // Or
    (0x0e, ThreeRegisters), // Xor
    (0x0f, ThreeRegisters), // Sll
    (0x10, ThreeRegisters), // Srl
    (0x11, ThreeRegisters), // Sla
    (0x12, ThreeRegisters), // Sra
    (0x17, ThreeRegisters), // Sltu
    (0x18, ThreeRegisters), // Mul
    (0x19, ThreeRegisters), // Div
    (0x1a, ThreeRegisters), // Mod
    (0x1b, ThreeRegisters), // Mulh
    (0x1c, ThreeRegisters), // Divu
    (0x13, TwoRegisters),   // Ldb
    (0x14, TwoRegisters),   // Ldh
    (0x15, TwoRegisters),   // Stb
    (0x16, TwoRegisters),   // Sth
    (0x3c, RegisterHalf),   // Ldil
    (0x3d, RegisterHalf),   // Ldih
    (0x00, Whole),          // Unknown
    (0x20, Bare),           // Iret
    (0x23, Offset),         // Syscall
    (0x24, RegisterHalf),   // Mfsr
    (0x25, SourceHalf),     // Mtsr
];

/// Gives the word, or nothing if the original decodes no word to this instruction.
pub fn word_of(numbers: Numbers) -> Option<u32> {
    let (code, shape) = *CODES.get(numbers.variant as usize)?;
    let word = (code << 26) | body(shape, numbers.fields);
    (instruction_numbers::of(PipelineCpu::decode(word)) == numbers).then_some(word)
}

/// Places the fields below the top six bits.
fn body(shape: Shape, [first, second, third]: [u32; 3]) -> u32 {
    let half = |field: u32| field & 0xffff;
    match shape {
        Bare => 0,
        ThreeRegisters => (first << 21) | (second << 16) | (third << 11),
        TwoRegisters => (first << 21) | (second << 16) | half(third),
        Branch => (first << 16) | (second << 21) | half(third),
        Offset => half(first),
        Register => first << 21,
        RegisterHalf => (first << 21) | half(second),
        SourceHalf => (first << 16) | half(second),
        Whole => (first << 16) | half(second),
    }
}
