//! What the step sheet offers to a fetch.

use super::record::{self, Record};
use super::{RECORD_ADDRESSES, RECORD_BYTES};
use crate::cpu_pipeline::harness::Numbers;
use crate::rows::{NORMAL, Offer};

/// Unknown 0 and the halfword that decodes to a short Unknown.
const UNKNOWN_0: Numbers = Numbers {
    variant: 0x26,
    fields: [0; 3],
};
const UNKNOWN_HALFWORD: u32 = 0xa000;

/// Gives what a sheet offers at an address in a mode.
pub fn offer(sheet: &[u8], address: u32, mode: u32) -> Offer {
    let record = record_at(sheet, address).and_then(record::read);
    offer_of(record, address, mode)
}

/// Gives what a record offers; no record, one of the other mode and no boundary give an Unknown.
pub fn offer_of(record: Option<Record>, address: u32, mode: u32) -> Offer {
    match (record, mode, address % RECORD_ADDRESSES) {
        (Some(Record::Normal(instruction)), NORMAL, 0) => Offer::Normal(instruction),
        (_, NORMAL, _) => Offer::Normal(UNKNOWN_0),
        (Some(Record::Pair([first, _])), _, 0) => Offer::Short(first),
        (Some(Record::Pair([_, second])), _, 2) => Offer::Short(second),
        _ => Offer::Short(UNKNOWN_HALFWORD),
    }
}

/// Gives the record that stands for an address, or nothing outside the sheet.
pub fn record_at(sheet: &[u8], address: u32) -> Option<&[u8; RECORD_BYTES]> {
    let first = (address / RECORD_ADDRESSES) as usize * RECORD_BYTES;
    sheet.get(first..)?.first_chunk()
}
