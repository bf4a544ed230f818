//! A step sheet as the memory that the original fetches from: words that its own `decode` reads, and short halves.

use std::io::{Error, Result};

pub const RECORDS: usize = 4096;
pub const PROGRAM_BYTES: usize = 4 * RECORDS;

/// A word and a halfword that the original decodes to Unknown, for every place that the sheet does not fill.
const UNKNOWN_WORD: u32 = 0x9800_0000;
const UNKNOWN_HALF: [u8; 2] = [0xa0, 0x00];

/// What a fetch in Normal mode reads, and what one in Short mode reads.
pub struct Memory {
    pub words: [u32; RECORDS],
    pub halves: [u8; PROGRAM_BYTES],
}

/// Where a record's operands stand in the word.
#[derive(Clone, Copy)]
enum Shape {
    Registers,
    Immediate,
    Branch,
    Register,
    Offset,
    Half,
}

use Shape::*;

/// The top six bits of commands 10 to 1F, in their order.
const ARITHMETIC: [u32; 16] = [
    0x03, 0x05, 0x0c, 0x0d, 0x0e, 0x0f, 0x10, 0x11, 0x12, 0x06, 0x17, 0x18, 0x1b, 0x19, 0x1c, 0x1a,
];

/// Fills the memory from a sheet.
pub fn memory(sheet: &[u8]) -> Result<Memory> {
    if !sheet.len().is_multiple_of(5) || sheet.len() > 5 * RECORDS {
        return Err(Error::other("a sheet has up to 4096 records of 5 bytes"));
    }
    let mut memory = Memory {
        words: [UNKNOWN_WORD; RECORDS],
        halves: std::array::from_fn(|place| UNKNOWN_HALF[place % 2]),
    };
    for (place, record) in sheet.chunks_exact(5).enumerate() {
        if record[0] == 0x61 {
            memory.halves[4 * place..4 * place + 4].copy_from_slice(&record[1..]);
        } else {
            memory.words[place] = word_of(record)
                .ok_or_else(|| Error::other(format!("command {:02x} is not timed", record[0])))?;
        }
    }
    Ok(memory)
}

/// Gives the word of a Normal record; narrow loads, special registers and Unknown are not timed.
fn word_of(record: &[u8]) -> Option<u32> {
    let (code, shape) = code_of(record[0])?;
    let [a, b, c, d] = [1, 2, 3, 4].map(|place| u32::from(record[place]));
    let half = (c << 8) | d;
    let body = match shape {
        Registers => (a << 21) | (b << 16) | (c << 11),
        Immediate => (a << 21) | (b << 16) | half,
        Branch => (b << 21) | (a << 16) | half,
        Register => a << 21,
        Offset => half,
        Half => (a << 21) | half,
    };
    Some((code << 26) | body)
}

/// Gives a command's top six bits and its shape.
fn code_of(command: u8) -> Option<(u32, Shape)> {
    Some(match command {
        0x00 => (0x00, Offset),
        0x01 => (0x3e, Offset),
        0x02 => (0x3f, Offset),
        0x10..=0x1f => (ARITHMETIC[usize::from(command - 0x10)], Registers),
        0x20 => (0x04, Immediate),
        0x21 => (0x01, Immediate),
        0x24 => (0x02, Immediate),
        0x25 => (0x16, Immediate),
        0x26 => (0x15, Immediate),
        0x27 => (0x07, Branch),
        0x28 => (0x08, Branch),
        0x30 => (0x3c, Half),
        0x31 => (0x3d, Half),
        0x40 => (0x0b, Register),
        0x41 => (0x1f, Register),
        0x42 => (0x21, Register),
        0x43 => (0x22, Register),
        0x50 => (0x09, Offset),
        0x51 => (0x0a, Offset),
        0x52 => (0x1d, Offset),
        0x53 => (0x1e, Offset),
        _ => return None,
    })
}
