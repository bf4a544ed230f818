//! Previews: runs around the panel's bounds.

use super::Maker;
use crate::case::Case;
use crate::panel::MOST;
use crate::rows::{Given, State};
use crate::sheet::RECORD_BYTES;

/// Lengths around each bound.
const LENGTHS: [u32; 17] = [
    0, 1_275, 1_276, 1_279, 1_280, 1_280, 1_280, 1_281, 1_283, 1_285, 1_285, 1_290, 2_560, 20_475,
    20_480, 20_481, 20_485,
];
/// Tick limits around each bound.
const LIMITS: [u32; 10] = [
    9_999,
    10_000,
    10_000,
    10_001,
    10_001,
    10_002,
    999_999,
    1_000_000,
    1_000_001,
    0xffff_ffff,
];

impl Maker {
    /// Appends the next preview and the lines that it needs; the records of a small one keep to a line.
    pub fn panel(&mut self, small: bool, out: &mut Vec<Case>) {
        self.change_the_sheet(small);
        let sheet_length = self.panel_length(small);
        let (state, given) = self.run_over(small, sheet_length, Self::panel_limit, out);
        out.push(Case::Panel(state, given));
    }

    /// Chooses the length of the sheet; around a bound, all records that the panel takes are in use.
    fn panel_length(&mut self, small: bool) -> u32 {
        if self.random.chance(65) {
            return self.sheet_length(small);
        }
        let length = self.random.pick(&LENGTHS);
        self.records_in_use = (length / RECORD_BYTES as u32).min(MOST as u32);
        length
    }

    /// Chooses the tick limit.
    fn panel_limit(&mut self, state: &State, given: Given) -> u32 {
        if self.random.chance(35) {
            self.random.pick(&LIMITS)
        } else {
            self.tick_limit(state, given)
        }
    }
}
