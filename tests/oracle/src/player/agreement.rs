//! A play beside the original's pipelined run from the same start, over the same sheet, load answers and table.

use super::turns::{refused, turn};
use super::{End, Played, play};
use crate::cpu_pipeline::harness::original::Original;
use crate::refusals::{NONE, NOT_RETIRABLE};
use crate::rows::{Begin, State};
use crate::runner::{self, HIGHEST_LIMIT, Run, Task};

/// The most ticks of the pipelined run.
const TICKS: u32 = 2_000;

/// Panics if the two differ once N instructions are retired, for any N that the ticks reach, or in their ends.
pub fn check(original: &mut Original, begin: &Begin, task: &Task) {
    let unlimited = Task {
        limit: HIGHEST_LIMIT,
        ..*task
    };
    if refused(&unlimited) != NONE {
        return;
    }
    let pipelined = Task {
        limit: TICKS,
        ..*task
    };
    let answered = play(begin, task);
    let mut run = Run::new(&original.start(begin));
    let mut plain = Played::new(begin);
    plain.values.reg[0] = 0;
    let mut left = task.answers;
    let end = loop {
        same_values(&plain, &answered, &run.state);
        if let Some(end) = runner::turn(original, &pipelined, &mut run, &mut left) {
            break end;
        }
        if run.state.instructions_executed > u64::from(plain.done) {
            let ended = turn(&unlimited, &mut plain);
            assert_eq!(ended, None, "the play ends before what retires");
        }
    };
    let end = same_end(end, &run.state, &unlimited, &mut plain);
    if end != End::Spent {
        let used = task.answers.len() - left.len();
        assert_eq!(plain.used as usize, used, "answers used");
    }
    right_limit(task.limit, &answered, end, plain.done);
}

/// Compares registers and place of a play with those retired, and with those answered after as many instructions.
fn same_values(plain: &Played, answered: &Played, state: &State) {
    let done = plain.done;
    assert_eq!(u64::from(done), state.instructions_executed, "retired");
    let Begin { reg, pc, mode, .. } = plain.values;
    assert_eq!(reg, state.reg, "registers after {done}");
    let place = (state.retire_pc, state.retire_mode);
    assert_eq!((pc, mode), place, "the place after {done}");
    if answered.done == done && !matches!(answered.end, End::Refused(_)) {
        assert_eq!(plain.values, answered.values, "answered after {done}");
    }
}

/// Compares the ends and gives that of the play; what stands before a load without an answer is not retired but done.
fn same_end(end: runner::End, state: &State, task: &Task, plain: &mut Played) -> End {
    let wanted = match end {
        runner::End::Halted => End::Halted,
        runner::End::Loads => End::Loads,
        runner::End::Refused(NOT_RETIRABLE) => End::Stopped,
        runner::End::Refused(number) => panic!("a pipelined run refused {number}"),
        runner::End::Spent => return End::Spent,
    };
    if end == runner::End::Loads && state.mem_wb.valid {
        assert_eq!(turn(task, plain), None, "what stands before a load");
    }
    let done = plain.done;
    let ended = (turn(task, plain), plain.done);
    assert_eq!(ended, (Some(wanted), done), "the end after {done}");
    wanted
}

/// Compares an answered end and count with those that the limit makes of the end without it.
fn right_limit(limit: u32, answered: &Played, end: End, done: u32) {
    let right = match end {
        _ if limit > HIGHEST_LIMIT => return,
        End::Spent if limit > done => return,
        End::Halted if limit == done => (end, done),
        _ if limit <= done => (End::Spent, limit),
        _ => (end, done),
    };
    assert_eq!((answered.end, answered.done), right, "the limit {limit}");
}
