//! The front panel's call, by a reading of RULES 24 of its own: the runner, with fewer records and ticks.

use crate::cpu_pipeline::harness::original::Original;
use crate::refusals::{
    BAD_LENGTH, LIMIT_TOO_HIGH, NONE, PANEL_LIMIT_TOO_HIGH, PANEL_SHEET_TOO_LONG,
};
use crate::rows::State;
use crate::runner::{self, End, Run, Task, first_bad_record};
use crate::sheet::{self, RECORD_BYTES};

/// The most records.
pub const MOST: usize = 256;
/// The highest tick limit.
const HIGHEST_LIMIT: u32 = 10_000;

/// Runs a sheet from a state.
pub fn preview(original: &mut Original, state: &State, task: &Task) -> Run {
    match refused(task) {
        NONE => runner::run(original, state, task),
        code => Run {
            end: End::Refused(code),
            ..Run::new(state)
        },
    }
}

/// Refuses a bad length, then too many records, then a bad record, then a limit that is too high for the runner, then
/// one that is too high here. What is left to refuse, the runner refuses.
fn refused(task: &Task) -> u32 {
    let length = task.sheet.len();
    if sheet::length_breaks(length) {
        return BAD_LENGTH;
    }
    if length > MOST * RECORD_BYTES {
        return PANEL_SHEET_TOO_LONG;
    }
    match first_bad_record(task.sheet) {
        NONE if task.limit > runner::HIGHEST_LIMIT => LIMIT_TOO_HIGH,
        NONE if task.limit > HIGHEST_LIMIT => PANEL_LIMIT_TOO_HIGH,
        code => code,
    }
}
