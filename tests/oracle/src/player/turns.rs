//! The turns of a play.

use super::effect::{self, Effect};
use super::{End, Played};
use crate::refusals::{BAD_LENGTH, LIMIT_TOO_HIGH, NONE};
use crate::rows::Begin;
use crate::runner::{HIGHEST_LIMIT, Task, first_bad_record};
use crate::sheet;

/// Plays a sheet from the values of a start; the task's limit counts instructions.
pub fn play(begin: &Begin, task: &Task) -> Played {
    let mut played = Played::new(begin);
    played.end = match refused(task) {
        NONE => take_turns(task, &mut played),
        code => End::Refused(code),
    };
    played
}

/// Refuses a bad length, then a bad record, then a limit that is too high.
pub fn refused(task: &Task) -> u32 {
    if sheet::length_breaks(task.sheet.len()) {
        return BAD_LENGTH;
    }
    match first_bad_record(task.sheet) {
        NONE if task.limit > HIGHEST_LIMIT => LIMIT_TOO_HIGH,
        code => code,
    }
}

/// Lets R0 be 0 and takes turns until the play ends.
fn take_turns(task: &Task, played: &mut Played) -> End {
    played.values.reg[0] = 0;
    loop {
        if let Some(end) = turn(task, played) {
            return end;
        }
    }
}

/// Ends a play that is halted, spent, stopped or out of load answers, in this order, or does an instruction.
pub fn turn(task: &Task, played: &mut Played) -> Option<End> {
    if played.halted {
        return Some(End::Halted);
    }
    if played.done == task.limit {
        return Some(End::Spent);
    }
    let effect = effect::at(&played.values, task);
    if effect == Effect::Stop {
        return Some(End::Stopped);
    }
    let answer = task.answers.get(played.used as usize);
    if matches!(effect, Effect::Load(_)) && answer.is_none() {
        return Some(End::Loads);
    }
    played.put_in_effect(effect, answer.copied().unwrap_or(0));
    None
}
