//! The places of a sheet where two neighbours may trade, in a lent list.

use super::registers::{Registers, of_moving};
use crate::refusals::{BAD_LENGTH, NONE, SHORT_LIST};
use crate::runner::first_bad_record;
use crate::sheet::{self, RECORD_BYTES};

/// The bytes of a record.
type Record = [u8; RECORD_BYTES];

/// Writes the places to the start of a lent list and gives 0 and their count, or the refusal and 0.
pub fn places(sheet: &[u8], list: &mut [u16]) -> [u32; 2] {
    match refused(sheet, list.len()) {
        NONE => [NONE, write(&listed(sheet), list)],
        code => [code, 0],
    }
}

/// Refuses a bad sheet, then a list that has fewer entries than the sheet has pairs of neighbours.
fn refused(sheet: &[u8], entries: usize) -> u32 {
    match sheet_refused(sheet) {
        NONE if entries < neighbours(sheet) => SHORT_LIST,
        code => code,
    }
}

/// Refuses a bad length, then a bad record.
pub fn sheet_refused(sheet: &[u8]) -> u32 {
    if sheet::length_breaks(sheet.len()) {
        return BAD_LENGTH;
    }
    first_bad_record(sheet)
}

/// Says how many pairs of neighbours a sheet has.
pub fn neighbours(sheet: &[u8]) -> usize {
    (sheet.len() / RECORD_BYTES).saturating_sub(1)
}

/// Gives each place whose record may trade with the next, in rising order.
pub fn listed(sheet: &[u8]) -> Vec<u16> {
    places_where(sheet, may_trade)
}

/// Gives each place whose record and the next may move, but not trade.
pub fn not_listed(sheet: &[u8]) -> Vec<u16> {
    places_where(sheet, |first, second| {
        let both_move = of_moving(first).is_some() && of_moving(second).is_some();
        both_move && !may_trade(first, second)
    })
}

/// Gives each place whose record and the next are as asked for, in rising order.
fn places_where(sheet: &[u8], are: fn(&Record, &Record) -> bool) -> Vec<u16> {
    let (records, _) = sheet.as_chunks();
    let pairs = (0..).zip(records.array_windows());
    pairs
        .filter(|(_, [first, second])| are(first, second))
        .map(|(place, _)| place)
        .collect()
}

/// Tells whether both of two records may move and neither writes what the other reads or writes.
fn may_trade(first: &Record, second: &Record) -> bool {
    let (Some(first), Some(second)) = (of_moving(first), of_moving(second)) else {
        return false;
    };
    !meets(&first, &second) && !meets(&second, &first)
}

/// Tells whether the destination of one record, other than R0, is a source or the destination of another.
fn meets(one: &Registers, other: &Registers) -> bool {
    match one.destination {
        None | Some(0) => false,
        written => {
            other.destination == written || other.sources.iter().any(|&read| Some(read) == written)
        }
    }
}

/// Writes places to the start of a list and gives their count.
fn write(places: &[u16], list: &mut [u16]) -> u32 {
    list[..places.len()].copy_from_slice(places);
    places.len() as u32
}
