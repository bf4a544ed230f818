//! The lines of a row: a sheet, the check, and what the list then holds.

use crate::buffers::{BLOCK_BYTES, BLOCK_WORDS, Buffers};
use crate::case::Case;
use crate::checked_rows::Expected;
use crate::refusals::NONE;
use crate::rows::LentList;
use crate::sheet::RECORD_BYTES;

/// The bytes of a record.
pub type Record = [u8; RECORD_BYTES];

/// The record that names no register.
pub const NOP: Record = [0; RECORD_BYTES];

/// What every entry is before: the place of no row but the longest.
pub const FILL: u16 = 9;

/// Makes a record of three registers.
pub const fn three(command: u8, [rd, rs1, rs2]: [u8; 3]) -> Record {
    [command, rd, rs1, rs2, 0]
}

/// Gives the lines that put the bytes of a sheet.
pub fn put(sheet: &[u8]) -> Vec<Expected> {
    let mut buffers = Buffers::new();
    buffers.sheet[..sheet.len()].copy_from_slice(sheet);
    let places = (0..sheet.len()).step_by(BLOCK_BYTES);
    let lines = places.map(|at| Expected {
        case: Case::PutSheet(at as u32, buffers.sheet_block(at)),
        begins: Vec::new(),
    });
    lines.collect()
}

/// Gives the line of a check that is answered with the count of some places, or refused.
pub fn check(lent: LentList, code: u32, places: &[u16]) -> Expected {
    Expected {
        case: Case::Trades(lent),
        begins: vec![code, places.len() as u32],
    }
}

/// Gives the line that shows the list from an entry on: places, and behind them what it was filled with.
pub fn show(at: u32, places: &[u16], fill: u16) -> Expected {
    let left = places.iter().skip(at as usize).copied();
    let shown = left.chain(std::iter::repeat(fill)).take(BLOCK_WORDS);
    Expected {
        case: Case::TradesShow(at),
        begins: shown.map(u32::from).collect(),
    }
}

/// Gives the lines of a row: bytes of a sheet, entries of a list, the refusal or 0, and the places.
pub fn row(sheet: &[u8], length: u32, code: u32, places: &[u16]) -> Vec<Expected> {
    let lent = LentList {
        sheet_length: sheet.len() as u32,
        length,
        fill: FILL.into(),
    };
    let mut lines = put(sheet);
    lines.push(check(lent, code, places));
    lines.push(show(0, places, FILL));
    lines
}

/// Gives the lines of a row of some records whose list has an entry for each pair of neighbours.
pub fn listed(records: &[Record], places: &[u16]) -> Vec<Expected> {
    let entries = records.len().saturating_sub(1);
    row(records.as_flattened(), entries as u32, NONE, places)
}
