//! Rows that are refused, and the order of the refusals: nothing is written.

use super::lines::{NOP, Record, row};
use crate::checked_rows::Expected;
use crate::refusals::{BAD_LENGTH, BAD_RECORD, NORMAL_REGISTER, SHORT_LIST};

/// Records that are refused with 5, with 1, and with 5 though a register is above 31 too.
const UNKNOWN: Record = [0x04, 0, 0, 0, 0];
const USED: Record = [0x00, 0, 0, 0, 1];
const R32: Record = [0x10, 32, 0, 0, 0];
const BOTH: Record = [0x10, 32, 0, 0, 1];

/// A list that is long enough.
const ENOUGH: u32 = 4;

/// Gives the lines of these rows.
pub fn rows() -> Vec<Expected> {
    let records = records().into_iter();
    let lines =
        records.flat_map(|(records, length, code)| row(records.as_flattened(), length, code, &[]));
    lines.chain(lengths()).collect()
}

/// Records, entries of the list and the refusal.
fn records() -> Vec<(Vec<Record>, u32, u32)> {
    vec![
        (vec![NOP, NOP], 0, SHORT_LIST),
        (vec![NOP, NOP, NOP], 1, SHORT_LIST),
        (vec![UNKNOWN, UNKNOWN, NOP], 1, BAD_RECORD),
        (vec![[0x21, 0, 0, 0, 0], NOP], 0, SHORT_LIST),
        (vec![NOP, [0x21, 0, 0, 0, 0], NOP], 1, SHORT_LIST),
        (vec![UNKNOWN], 0, BAD_RECORD),
        (vec![R32], 0, NORMAL_REGISTER),
        (vec![BOTH], 0, BAD_RECORD),
        (vec![NOP, NOP, USED], ENOUGH, BAD_RECORD),
        (vec![NOP, NOP, R32], ENOUGH, NORMAL_REGISTER),
        (vec![NOP, NOP, USED], 0, BAD_RECORD),
        (vec![NOP, NOP, R32], 1, NORMAL_REGISTER),
        (vec![R32, UNKNOWN], ENOUGH, NORMAL_REGISTER),
        (vec![UNKNOWN, R32], ENOUGH, BAD_RECORD),
        (vec![R32, UNKNOWN], 0, NORMAL_REGISTER),
        (vec![UNKNOWN, R32], 0, BAD_RECORD),
        (vec![NOP, UNKNOWN, R32], 1, BAD_RECORD),
        (vec![NOP, R32, UNKNOWN], 1, NORMAL_REGISTER),
    ]
}

/// Lengths that 5 does not divide, with records that are refused and lists that are too short.
fn lengths() -> Vec<Expected> {
    let mut all = [NOP, UNKNOWN, R32].as_flattened().to_vec();
    all.push(0);
    let rows: [(&[u8], u32); 7] = [
        (&all, 0),
        (&[0; 1], ENOUGH),
        (&[0; 11], ENOUGH),
        (&[0; 11], 0),
        (&[4; 6], ENOUGH),
        (&[4; 11], 0),
        (&[0x10, 32, 0, 0, 0, 0, 0], 0),
    ];
    let lines = rows.map(|(sheet, length)| row(sheet, length, BAD_LENGTH, &[]));
    lines.into_iter().flatten().collect()
}
