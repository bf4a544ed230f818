//! The turns of a run, with the original's ticks.

use super::{End, Run, Task};
use crate::cpu_pipeline::harness::original::Original;
use crate::refusals::{self, BAD_LENGTH, LIMIT_TOO_HIGH, NONE, OUT_OF_BOUNDS};
use crate::rows::{Answer, Input, LOAD, Seen, State, Waits};
use crate::sheet;
use crate::special_registers;

/// The highest tick limit.
pub const HIGHEST_LIMIT: u32 = 1_000_000;

/// Runs a sheet from a state.
pub fn run(original: &mut Original, state: &State, task: &Task) -> Run {
    let mut run = Run::new(state);
    run.end = match refused(state, task) {
        NONE => take_turns(original, task, &mut run),
        code => End::Refused(code),
    };
    run
}

/// Refuses a bad length, then a bad record, then a limit that is too high, then a state out of bounds.
fn refused(state: &State, task: &Task) -> u32 {
    if sheet::length_breaks(task.sheet.len()) {
        return BAD_LENGTH;
    }
    match first_bad_record(task.sheet) {
        NONE if task.limit > HIGHEST_LIMIT => LIMIT_TOO_HIGH,
        NONE if refusals::state_breaks(state) => OUT_OF_BOUNDS,
        code => code,
    }
}

/// Gives the refusal of the first record that has one, or none.
pub fn first_bad_record(sheet: &[u8]) -> u32 {
    let (records, _) = sheet.as_chunks();
    let mut codes = records.iter().map(sheet::refuse);
    codes.find(|&code| code != NONE).unwrap_or(NONE)
}

/// Takes turns until the run ends.
fn take_turns(original: &mut Original, task: &Task, run: &mut Run) -> End {
    let mut left = task.answers;
    loop {
        if let Some(end) = turn(original, task, run, &mut left) {
            return end;
        }
    }
}

/// Ends a run or does one tick, which may take the first of the load answers left.
pub fn turn(original: &mut Original, task: &Task, run: &mut Run, left: &mut &[u32]) -> Option<End> {
    if let Some(end) = ended(&run.state, run.ticks, task.limit) {
        return Some(end);
    }
    let (next, seen) = fed_tick(original, &run.state, task, left.first());
    if seen.request == LOAD && left.split_off_first().is_none() {
        return Some(End::Loads);
    }
    run.state = next;
    run.count(&seen);
    None
}

/// Ends a run that is halted, then one whose limit is used up, then one that stands where it is refused.
fn ended(state: &State, ticks: u32, limit: u32) -> Option<End> {
    if !state.running {
        return Some(End::Halted);
    }
    if ticks == limit {
        return Some(End::Spent);
    }
    match refusals::standing(state) {
        NONE => None,
        code => Some(End::Refused(code)),
    }
}

/// Does one tick with the offer at the fetch place, and does it over if the tick fetches elsewhere.
fn fed_tick(
    original: &mut Original,
    state: &State,
    task: &Task,
    word: Option<&u32>,
) -> (State, Seen) {
    let answer = Answer {
        given: word.is_some(),
        word: word.copied().unwrap_or(0),
    };
    let special = special_registers::answer(task.table, state);
    let given_at = |pc, mode| Input {
        offer: sheet::offer(task.sheet, pc, mode),
        answer,
        special,
        waits: Waits::NONE,
    };
    let (pc, mode) = (state.fetch_pc, state.fetch_mode);
    let (next, seen) = original.tick(state, &given_at(pc, mode));
    if !seen.fetch || (seen.pc, seen.mode) == (pc, mode) {
        return (next, seen);
    }
    original.tick(state, &given_at(seen.pc, seen.mode))
}
