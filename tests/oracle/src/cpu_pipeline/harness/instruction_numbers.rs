//! A Normal instruction as numbers.

use super::{Instruction, Numbers, numbers, signed};

/// Gives the position in the enum and the fields.
pub fn of(instruction: Instruction) -> Numbers {
    match instruction {
        Instruction::Nop => numbers(0x00, &[]),
        Instruction::Cpuid => numbers(0x11, &[]),
        Instruction::Halt => numbers(0x12, &[]),
        Instruction::Unknown(word) => numbers(0x26, &[word >> 16, word & 0xffff]),
        Instruction::Iret => numbers(0x27, &[]),
        Instruction::Syscall { imm } => numbers(0x28, &[imm.into()]),
        _ => of_three_registers(instruction),
    }
}

/// Gives the numbers of an instruction with a destination and two sources.
fn of_three_registers(instruction: Instruction) -> Numbers {
    let three =
        |variant, rd: u8, rs1: u8, rs2: u8| numbers(variant, &[rd.into(), rs1.into(), rs2.into()]);
    match instruction {
        Instruction::Add { rd, rs1, rs2 } => three(0x03, rd, rs1, rs2),
        Instruction::Sub { rd, rs1, rs2 } => three(0x05, rd, rs1, rs2),
        Instruction::Slt { rd, rs1, rs2 } => three(0x06, rd, rs1, rs2),
        Instruction::And { rd, rs1, rs2 } => three(0x13, rd, rs1, rs2),
        Instruction::Or { rd, rs1, rs2 } => three(0x14, rd, rs1, rs2),
        Instruction::Xor { rd, rs1, rs2 } => three(0x15, rd, rs1, rs2),
        Instruction::Sll { rd, rs1, rs2 } => three(0x16, rd, rs1, rs2),
        Instruction::Srl { rd, rs1, rs2 } => three(0x17, rd, rs1, rs2),
        Instruction::Sla { rd, rs1, rs2 } => three(0x18, rd, rs1, rs2),
        Instruction::Sra { rd, rs1, rs2 } => three(0x19, rd, rs1, rs2),
        Instruction::Sltu { rd, rs1, rs2 } => three(0x1a, rd, rs1, rs2),
        Instruction::Mul { rd, rs1, rs2 } => three(0x1b, rd, rs1, rs2),
        Instruction::Div { rd, rs1, rs2 } => three(0x1c, rd, rs1, rs2),
        Instruction::Mod { rd, rs1, rs2 } => three(0x1d, rd, rs1, rs2),
        Instruction::Mulh { rd, rs1, rs2 } => three(0x1e, rd, rs1, rs2),
        Instruction::Divu { rd, rs1, rs2 } => three(0x1f, rd, rs1, rs2),
        _ => of_two_registers(instruction),
    }
}

/// Gives the numbers of an instruction with two registers and a signed immediate.
fn of_two_registers(instruction: Instruction) -> Numbers {
    let (variant, first, second, immediate) = match instruction {
        Instruction::Ld { rd, base, offset } => (0x01, rd, base, offset),
        Instruction::St { rd, base, offset } => (0x02, rd, base, offset),
        Instruction::Addi { rd, rs1, imm } => (0x04, rd, rs1, imm),
        Instruction::Beq { rs1, rs2, offset } => (0x07, rs1, rs2, offset),
        Instruction::Bne { rs1, rs2, offset } => (0x08, rs1, rs2, offset),
        Instruction::Ldb { rd, base, offset } => (0x20, rd, base, offset),
        Instruction::Ldh { rd, base, offset } => (0x21, rd, base, offset),
        Instruction::Stb { rd, base, offset } => (0x22, rd, base, offset),
        Instruction::Sth { rd, base, offset } => (0x23, rd, base, offset),
        _ => return of_one_field(instruction),
    };
    numbers(variant, &[first.into(), second.into(), signed(immediate)])
}

/// Gives the numbers of a jump or of an instruction with one register and a halfword.
fn of_one_field(instruction: Instruction) -> Numbers {
    let half = |variant, register: u8, half: u16| numbers(variant, &[register.into(), half.into()]);
    match instruction {
        Instruction::Jmp { offset } => numbers(0x09, &[signed(offset)]),
        Instruction::Jal { offset } => numbers(0x0a, &[signed(offset)]),
        Instruction::Jr { rd } => numbers(0x0b, &[rd.into()]),
        Instruction::Jmps { offset } => numbers(0x0c, &[signed(offset)]),
        Instruction::Jals { offset } => numbers(0x0d, &[signed(offset)]),
        Instruction::Jrs { rd } => numbers(0x0e, &[rd.into()]),
        Instruction::Jalr { rd } => numbers(0x0f, &[rd.into()]),
        Instruction::Jalrs { rd } => numbers(0x10, &[rd.into()]),
        Instruction::Ldil { rd, imm } => half(0x24, rd, imm),
        Instruction::Ldih { rd, imm } => half(0x25, rd, imm),
        Instruction::Mfsr { rd, sr } => half(0x29, rd, sr),
        Instruction::Mtsr { rs, sr } => half(0x2a, rs, sr),
        _ => unreachable!("every other kind has its arm above"),
    }
}
