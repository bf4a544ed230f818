//! The row of every command between two NOPs, and of each two commands that may move.

use super::lines::{NOP, Record, check, listed, put, show};
use crate::checked_rows::Expected;
use crate::refusals::NONE;
use crate::rows::LentList;
use crate::sheet::COMMANDS;

/// The commands that may move.
fn moving() -> impl Iterator<Item = u8> + Clone {
    [0x00].into_iter().chain(0x10..=0x20).chain([0x30, 0x31])
}

/// Gives the lines of these rows.
pub fn rows() -> Vec<Expected> {
    between_nops().into_iter().chain(in_a_row()).collect()
}

/// Gives the lines of all commands, with all operands 0: NOP, command, NOP, and so on.
fn between_nops() -> Vec<Expected> {
    let mut records = vec![NOP];
    let mut places = Vec::new();
    for (command, ..) in COMMANDS {
        if moving().any(|known| known == command) {
            let before = records.len() as u16 - 1;
            places.extend([before, before + 1]);
        }
        records.extend([[command, 0, 0, 0, 0], NOP]);
    }
    let sheet = records.as_flattened();
    let pairs = records.len() as u16 - 1;
    let lent = LentList {
        sheet_length: sheet.len() as u32,
        length: pairs.into(),
        fill: pairs.into(),
    };
    let mut lines = put(sheet);
    lines.push(check(lent, NONE, &places));
    lines.extend([0, 64].map(|at| show(at, &places, pairs)));
    lines
}

/// Gives the lines of the commands that may move, one behind the other, each with a register of its own.
fn in_a_row() -> Vec<Expected> {
    let own = |(register, command): (u8, u8)| match command {
        0x00 => NOP,
        0x30 | 0x31 => [command, register, 0, 0, 0],
        _ => [command, register, register, 0, 0],
    };
    let records: Vec<Record> = (1..).zip(moving()).map(own).collect();
    let places: Vec<u16> = (0..records.len() as u16 - 1).collect();
    listed(&records, &places)
}
