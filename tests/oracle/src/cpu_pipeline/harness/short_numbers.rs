//! A short instruction as numbers.

use super::{Numbers, ShortInstruction, numbers, signed};

/// Gives the position in the enum and the fields.
pub fn of(instruction: ShortInstruction) -> Numbers {
    let word = u32::from;
    match instruction {
        ShortInstruction::Mov { rd, rs1 } => numbers(0x0, &[word(rd), word(rs1)]),
        ShortInstruction::Add { rd, rs1, rs2 } => numbers(0x1, &[word(rd), word(rs1), word(rs2)]),
        ShortInstruction::Addi { rd, imm } => numbers(0x2, &[word(rd), signed(imm)]),
        ShortInstruction::Ld { rd, rs1 } => numbers(0x3, &[word(rd), word(rs1)]),
        ShortInstruction::St { rd, rs1 } => numbers(0x4, &[word(rd), word(rs1)]),
        ShortInstruction::Bz { rd, offset } => numbers(0x5, &[word(rd), signed(offset)]),
        ShortInstruction::Bnz { rd, offset } => numbers(0x6, &[word(rd), signed(offset)]),
        ShortInstruction::Jr { rd } => numbers(0x7, &[word(rd)]),
        ShortInstruction::Jal { offset } => numbers(0x8, &[signed(offset)]),
        ShortInstruction::Ldi { rd, imm } => numbers(0x9, &[word(rd), word(imm)]),
        ShortInstruction::Ret => numbers(0xa, &[]),
        ShortInstruction::Unknown(halfword) => numbers(0xb, &[u32::from(halfword)]),
    }
}

/// Gives the short instruction with these numbers, registers above 15 included.
pub fn instruction_of(numbers: Numbers) -> ShortInstruction {
    let Numbers { variant, fields } = numbers;
    let [rd, rs1, rs2] = fields.map(|field| field as u8);
    match variant {
        0x0 => ShortInstruction::Mov { rd, rs1 },
        0x1 => ShortInstruction::Add { rd, rs1, rs2 },
        0x2 => ShortInstruction::Addi {
            rd,
            imm: fields[1] as i8,
        },
        0x3 => ShortInstruction::Ld { rd, rs1 },
        0x4 => ShortInstruction::St { rd, rs1 },
        0x5 => ShortInstruction::Bz {
            rd,
            offset: fields[1] as i8,
        },
        0x6 => ShortInstruction::Bnz {
            rd,
            offset: fields[1] as i8,
        },
        0x7 => ShortInstruction::Jr { rd },
        0x8 => ShortInstruction::Jal {
            offset: fields[0] as i16,
        },
        0x9 => ShortInstruction::Ldi { rd, imm: rs1 },
        0xa => ShortInstruction::Ret,
        _ => ShortInstruction::Unknown(fields[0] as u16),
    }
}
