//! The listed places of a sheet beside the original.

use super::{Orders, listed, sheet_refused};
use crate::cpu_pipeline::harness::original::Original;
use crate::refusals::NONE;

/// The most places of a sheet that are tried.
const MOST: usize = 64;

/// Panics if the two orders of the records at a listed place leave different registers on the original, or take other
/// ticks than they should, and gives the places that were tried. A number chooses the registers along with the sheet.
pub fn check(original: &mut Original, sheet: &[u8], number: u32) -> Vec<u16> {
    if sheet_refused(sheet) != NONE {
        return Vec::new();
    }
    let listed = listed(sheet);
    let step = listed.len().div_ceil(MOST).max(1);
    let tried: Vec<u16> = listed.into_iter().step_by(step).collect();
    let mut orders = Orders::new(sheet, number);
    for &place in &tried {
        let agree = orders.agree(original, place.into());
        assert!(agree.registers, "registers of both orders at {place}");
        assert!(agree.ticks, "ticks of both orders at {place}");
    }
    tried
}
