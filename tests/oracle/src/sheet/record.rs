//! One record of the step sheet.

use super::RECORD_BYTES;
use super::command::{self, Shape};
use crate::cpu_pipeline::harness::Numbers;
use crate::refusals::{self, BAD_RECORD, NONE};
use crate::special_registers::MFSR;

/// What a record offers.
#[derive(Debug, Clone, Copy, PartialEq, Eq)]
pub enum Record {
    Normal(Numbers),
    Pair([u32; 2]),
}

/// Gives a record's refusal: 5, then 1, or none.
pub fn refuse(bytes: &[u8; RECORD_BYTES]) -> u32 {
    match read(bytes) {
        None => BAD_RECORD,
        Some(Record::Normal(instruction)) => refusals::instruction(&instruction),
        Some(Record::Pair(_)) => NONE,
    }
}

/// Reads a record, or nothing if there is no such command or an unused byte is not zero.
pub fn read(bytes: &[u8; RECORD_BYTES]) -> Option<Record> {
    let [command, a, b, c, d] = *bytes;
    let (variant, shape) = command::of(command)?;
    if shape.unused().iter().any(|&place| bytes[place] != 0) {
        return None;
    }
    let [first, second] = [[a, b], [c, d]].map(|half| u32::from(u16::from_be_bytes(half)));
    let signed = i32::from(second as i16) as u32;
    let fields = match shape {
        Shape::Bare => [0; 3],
        Shape::ThreeRegisters => [a.into(), b.into(), c.into()],
        Shape::TwoRegisters => [a.into(), b.into(), signed],
        Shape::RegisterHalf => [a.into(), second, 0],
        Shape::Register => [a.into(), 0, 0],
        Shape::Offset => [signed, 0, 0],
        Shape::Half => [second, 0, 0],
        Shape::Word => [first, second, 0],
        Shape::Pair => return Some(Record::Pair([first, second])),
    };
    Some(Record::Normal(Numbers { variant, fields }))
}

/// Gives the number of the special register that a record's MFSR reads.
pub fn special_register(bytes: &[u8; RECORD_BYTES]) -> Option<u32> {
    match read(bytes)? {
        Record::Normal(Numbers {
            variant: MFSR,
            fields: [_, register, _],
        }) => Some(register),
        _ => None,
    }
}

/// Writes a record that read reads back.
pub fn write(record: &Record) -> [u8; RECORD_BYTES] {
    let (command, [first, second, third]) = match *record {
        Record::Normal(Numbers { variant, fields }) => (command::byte_of(variant), fields),
        Record::Pair([first, second]) => (command::PAIR, [first, second, 0]),
    };
    let (_, shape) = command::of(command).expect("a command just found");
    let operands = match shape {
        Shape::Bare => 0,
        Shape::ThreeRegisters => (first << 24) | (second << 16) | (third << 8),
        Shape::TwoRegisters => (first << 24) | (second << 16) | (third & 0xffff),
        Shape::RegisterHalf => (first << 24) | second,
        Shape::Register => first << 24,
        Shape::Offset | Shape::Half => first & 0xffff,
        Shape::Word | Shape::Pair => (first << 16) | second,
    };
    let [a, b, c, d] = operands.to_be_bytes();
    [command, a, b, c, d]
}
