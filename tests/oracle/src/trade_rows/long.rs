//! Rows of the longest sheets, of NOPs alone.

use super::lines::{check, put, show};
use crate::checked_rows::Expected;
use crate::refusals::{BAD_LENGTH, NONE, SHORT_LIST};
use crate::rows::LentList;
use crate::sheet::{LONGEST, RECORD_BYTES};

/// Records of the longest sheet, and pairs of neighbours.
const RECORDS: u32 = (LONGEST / RECORD_BYTES) as u32;
const PAIRS: u32 = RECORDS - 1;
/// What every entry is before, and where the last line shows the list.
const FILL: u16 = 0xfff;
const LAST_SHOWN: u32 = 4_096;

/// Gives the lines of these rows: one sheet of zeros, of which each check takes its bytes. The first list is shown
/// whole.
pub fn rows() -> Vec<Expected> {
    let mut lines = put(&[0; LONGEST + RECORD_BYTES]);
    lines.extend(row(RECORDS, PAIRS, NONE));
    let places: Vec<u16> = (0..PAIRS as u16).collect();
    let parts = (64..LAST_SHOWN - 64).step_by(64);
    lines.extend(parts.map(|at| show(at, &places, FILL)));
    let others = [
        (RECORDS, PAIRS - 1, SHORT_LIST),
        (RECORDS, 0, SHORT_LIST),
        (RECORDS, PAIRS + 1, NONE),
        (RECORDS, LAST_SHOWN + 64, NONE),
        (RECORDS - 1, PAIRS, NONE),
        (RECORDS - 1, PAIRS - 1, NONE),
        (RECORDS - 1, PAIRS - 2, SHORT_LIST),
        (RECORDS + 1, LAST_SHOWN + 64, BAD_LENGTH),
        (RECORDS + 1, 0, BAD_LENGTH),
    ];
    lines.extend(
        others
            .into_iter()
            .flat_map(|(records, length, code)| row(records, length, code)),
    );
    lines
}

/// Gives the lines of a check of so many records, which show both ends of the list.
fn row(records: u32, length: u32, code: u32) -> Vec<Expected> {
    let lent = LentList {
        sheet_length: records * RECORD_BYTES as u32,
        length,
        fill: FILL.into(),
    };
    let count = if code == NONE { records - 1 } else { 0 };
    let places: Vec<u16> = (0..count as u16).collect();
    let mut lines = vec![check(lent, code, &places)];
    let ends = [0, LAST_SHOWN - 64, LAST_SHOWN];
    lines.extend(ends.map(|at| show(at, &places, FILL)));
    lines
}
