//! The command bytes of the step sheet.

/// What stands in the four operand bytes behind a command.
#[derive(Debug, Clone, Copy, PartialEq, Eq)]
pub enum Shape {
    /// Four unused bytes.
    Bare,
    /// Three registers and an unused byte.
    ThreeRegisters,
    /// Two registers and a signed halfword.
    TwoRegisters,
    /// A register, an unused byte and a halfword.
    RegisterHalf,
    /// A register and three unused bytes.
    Register,
    /// Two unused bytes and a signed halfword.
    Offset,
    /// Two unused bytes and a halfword.
    Half,
    /// A word.
    Word,
    /// Two short halfwords.
    Pair,
}

use Shape::*;

impl Shape {
    /// Gives the places of the unused bytes in a record.
    pub fn unused(self) -> &'static [usize] {
        match self {
            Bare => &[1, 2, 3, 4],
            ThreeRegisters => &[4],
            RegisterHalf => &[2],
            Register => &[2, 3, 4],
            Offset | Half => &[1, 2],
            TwoRegisters | Word | Pair => &[],
        }
    }

    /// Says how many registers a record names; they stand from its second byte on.
    pub fn registers(self) -> usize {
        match self {
            ThreeRegisters => 3,
            TwoRegisters => 2,
            RegisterHalf | Register => 1,
            Bare | Offset | Half | Word | Pair => 0,
        }
    }
}

/// Each command, the position of its kind in the enum of Normal instructions, and its shape.
pub const COMMANDS: [(u8, u32, Shape); 44] = [
    (0x00, 0x00, Bare),           // Nop
    (0x01, 0x11, Bare),           // Cpuid
    (0x02, 0x12, Bare),           // Halt
    (0x03, 0x27, Bare),           // Iret
    (0x10, 0x03, ThreeRegisters), // Add
    (0x11, 0x05, ThreeRegisters), // Sub
    (0x12, 0x13, ThreeRegisters), // And
    (0x13, 0x14, ThreeRegisters), // Or
    (0x14, 0x15, ThreeRegisters), // Xor
    (0x15, 0x16, ThreeRegisters), // Sll
    (0x16, 0x17, ThreeRegisters), // Srl
    (0x17, 0x18, ThreeRegisters), // Sla
    (0x18, 0x19, ThreeRegisters), // Sra
    (0x19, 0x06, ThreeRegisters), // Slt
    (0x1a, 0x1a, ThreeRegisters), // Sltu
    (0x1b, 0x1b, ThreeRegisters), // Mul
    (0x1c, 0x1e, ThreeRegisters), // Mulh
    (0x1d, 0x1c, ThreeRegisters), // Div
    (0x1e, 0x1f, ThreeRegisters), // Divu
    (0x1f, 0x1d, ThreeRegisters), // Mod
    (0x20, 0x04, TwoRegisters),   // Addi
    (0x21, 0x01, TwoRegisters),   // Ld
    (0x22, 0x21, TwoRegisters),   // Ldh
    (0x23, 0x20, TwoRegisters),   // Ldb
    (0x24, 0x02, TwoRegisters),   // St
    (0x25, 0x23, TwoRegisters),   // Sth
    (0x26, 0x22, TwoRegisters),   // Stb
    (0x27, 0x07, TwoRegisters),   // Beq
    (0x28, 0x08, TwoRegisters),   // Bne
    (0x30, 0x24, RegisterHalf),   // Ldil
    (0x31, 0x25, RegisterHalf),   // Ldih
    (0x32, 0x2a, RegisterHalf),   // Mtsr
    (0x33, 0x29, RegisterHalf),   // Mfsr
    (0x40, 0x0b, Register),       // Jr
    (0x41, 0x0e, Register),       // Jrs
    (0x42, 0x0f, Register),       // Jalr
    (0x43, 0x10, Register),       // Jalrs
    (0x50, 0x09, Offset),         // Jmp
    (0x51, 0x0a, Offset),         // Jal
    (0x52, 0x0c, Offset),         // Jmps
    (0x53, 0x0d, Offset),         // Jals
    (0x54, 0x28, Half),           // Syscall
    (0x60, 0x26, Word),           // Unknown
    (PAIR, 0x00, Pair),
];

/// The command of two short halfwords.
pub const PAIR: u8 = 0x61;

/// The same by the command byte, nothing where there is no such command.
const BY_BYTE: [Option<(u32, Shape)>; 256] = by_byte();

/// Gives the position of a command's kind and its shape, or nothing if there is no such command.
pub fn of(byte: u8) -> Option<(u32, Shape)> {
    BY_BYTE[usize::from(byte)]
}

/// Places the commands by their bytes.
const fn by_byte() -> [Option<(u32, Shape)>; 256] {
    let mut all = [None; 256];
    let mut place = 0;
    while place < COMMANDS.len() {
        let (byte, variant, shape) = COMMANDS[place];
        all[byte as usize] = Some((variant, shape));
        place += 1;
    }
    all
}

/// Gives the command of a kind of Normal instructions.
pub fn byte_of(variant: u32) -> u8 {
    let mut commands = COMMANDS.iter().filter(|(_, _, shape)| *shape != Pair);
    let found = commands.find(|(_, known, _)| *known == variant);
    found.expect("a kind of Normal instructions").0
}
