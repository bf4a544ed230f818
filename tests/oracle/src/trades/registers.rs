//! The registers of a record that may move, by its five bytes.

use crate::sheet::RECORD_BYTES;
use std::ops::RangeInclusive;

/// The commands of the records that may move.
const NOP: u8 = 0x00;
const THREE_REGISTERS: RangeInclusive<u8> = 0x10..=0x1f;
const ADDI: u8 = 0x20;
const LDIL: u8 = 0x30;
const LDIH: u8 = 0x31;

/// The registers that a record writes and reads.
pub struct Registers {
    pub destination: Option<u8>,
    pub sources: Vec<u8>,
}

/// Gives the registers of a record, or nothing for one that may not move. LDIL and LDIH read the register of which they
/// write a half.
pub fn of_moving(record: &[u8; RECORD_BYTES]) -> Option<Registers> {
    let [command, first, second, third, _] = *record;
    if !may_move(command) {
        return None;
    }
    let (destination, sources) = match command {
        NOP => (None, vec![]),
        ADDI => (Some(first), vec![second]),
        LDIL | LDIH => (Some(first), vec![first]),
        _ => (Some(first), vec![second, third]),
    };
    Some(Registers {
        destination,
        sources,
    })
}

/// Tells whether records of a command may move.
fn may_move(command: u8) -> bool {
    THREE_REGISTERS.contains(&command) || [NOP, ADDI, LDIL, LDIH].contains(&command)
}
