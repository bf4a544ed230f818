//! An instruction as a listing shows it, by RULES 16 and 2.2 and the conventions of examples/README.md.

use crate::sheet::{self, RECORD_BYTES, Shape};

/// The names of the commands, by the high digit of their bytes and from its low digit 0 on.
const NAMES: [&[&str]; 7] = [
    &["NOP", "CPUID", "HALT", "IRET"],
    &[
        "ADD", "SUB", "AND", "OR", "XOR", "SLL", "SRL", "SLA", "SRA", "SLT", "SLTU", "MUL", "MULH",
        "DIV", "DIVU", "MOD",
    ],
    &["ADDI", "LD", "LDH", "LDB", "ST", "STH", "STB", "BEQ", "BNE"],
    &["LDIL", "LDIH", "MTSR", "MFSR"],
    &["JR", "JRS", "JALR", "JALRS"],
    &["JMP", "JAL", "JMPS", "JALS", "SYSCALL"],
    &["Unknown", "pair"],
];

/// Writes a record, or a question mark where there is no such command or bytes are missing.
pub fn of(record: &[u8]) -> String {
    let Ok([command, a, b, c, d]) = <[u8; RECORD_BYTES]>::try_from(record) else {
        return "?".to_string();
    };
    let names = NAMES.get(usize::from(command >> 4));
    let name = names.and_then(|names| names.get(usize::from(command & 0xf)));
    let (Some(name), Some((_, shape))) = (name, sheet::command(command)) else {
        return "?".to_string();
    };
    let [first, second] = [[a, b], [c, d]].map(u16::from_be_bytes);
    let signed = second as i16;
    let operands = match shape {
        Shape::Bare => return name.to_string(),
        Shape::ThreeRegisters => format!("R{a},R{b},R{c}"),
        Shape::TwoRegisters if reaches_memory(command) => format!("R{a},R{b}{signed:+}"),
        Shape::TwoRegisters => format!("R{a},R{b},{signed}"),
        Shape::RegisterHalf => format!("R{a},{second}"),
        Shape::Register => format!("R{a}"),
        Shape::Offset => signed.to_string(),
        Shape::Half => second.to_string(),
        Shape::Word => format!("{first:04X}{second:04X}"),
        Shape::Pair => format!("{first:04X} {second:04X}"),
    };
    format!("{name} {operands}")
}

/// Tells whether a command is a load or a store.
fn reaches_memory(command: u8) -> bool {
    (0x21..=0x26).contains(&command)
}

/// Writes a halfword's instruction, or a question mark where there is none.
pub fn of_short(halfword: u16) -> String {
    let [d, a, b] = [8, 4, 0].map(|place| match halfword >> place & 0xf {
        15 => "R31".to_string(),
        register => format!("R{register}"),
    });
    let byte = halfword as u8;
    let signed = byte as i8;
    match halfword >> 12 {
        0x0 => format!("MOV {d},{a}"),
        0x1 => format!("ADD {d},{a},{b}"),
        0x2 => format!("ADDI {d},{signed}"),
        0x3 => format!("LD {d},{a}"),
        0x4 => format!("ST {d},{a}"),
        0x5 => format!("BZ {d},{signed}"),
        0x6 => format!("BNZ {d},{signed}"),
        0x7 => format!("JR {d}"),
        0x8 => format!("JAL {}", (halfword << 4) as i16 >> 4),
        0x9 => format!("LDI {d},{byte}"),
        0xf => "RET".to_string(),
        _ => "?".to_string(),
    }
}
