//! Rows that ask a state whose latches are handed in: origins are shown where ID/EX executes in the tick.

use super::Expected;
use super::latches::{ADD, MUL, NOP, empty, ex_mem, id_ex, mem_wb};
use crate::case::Case;
use crate::cpu_pipeline::harness::Numbers;
use crate::rows::{IdEx, IfId, Origin, Raw, State};
use Origin::{ExMem, MemWb, NotShown, RegisterFile};

/// Gives the lines of these rows.
pub fn rows() -> Vec<Expected> {
    let rows = executing().into_iter().chain(waiting());
    rows.map(|(state, origins)| Expected {
        case: Case::Ask(state),
        origins: origins.to_vec(),
    })
    .collect()
}

/// States in which no wait is under way or begins.
fn executing() -> Vec<(State, [Origin; 2])> {
    let mut reading = empty();
    (reading.id_ex, reading.mem_wb) = (id_ex(ADD, 2), mem_wb(3));
    let [
        mut newer,
        mut halting,
        mut stopped,
        mut invalid,
        mut raising,
    ] = [reading; 5];
    newer.ex_mem = ex_mem(3);
    halting.mem_wb.halt = true;
    stopped.running = false;
    invalid.id_ex.valid = false;
    raising.id_ex.exception = 2;
    let (mut one, mut none, mut redirecting) = (reading, reading, reading);
    one.id_ex.n_srcs = 1;
    none.id_ex = id_ex(NOP, 0);
    redirecting.id_ex.predicted_taken = true;
    vec![
        (reading, [MemWb; 2]),
        (newer, [ExMem; 2]),
        (halting, [NotShown; 2]),
        (stopped, [NotShown; 2]),
        (invalid, [NotShown; 2]),
        (raising, [MemWb; 2]),
        (one, [MemWb, RegisterFile]),
        (none, [RegisterFile; 2]),
        (redirecting, [MemWb; 2]),
    ]
}

/// States with a MUL in ID/EX: none while its wait begins or goes on, but a load-use stall comes before its beginning.
fn waiting() -> Vec<(State, [Origin; 2])> {
    let mut begins = empty();
    (begins.id_ex, begins.mem_wb) = (id_ex(MUL, 2), mem_wb(3));
    let armed = |ex_cycles_left| State {
        ex_armed: true,
        ex_cycles_left,
        ..begins
    };
    let stalls = State {
        if_id: IfId {
            valid: true,
            raw: Raw::Normal(Numbers {
                variant: ADD,
                fields: [6, 4, 4],
            }),
            ..begins.if_id
        },
        id_ex: IdEx {
            is_load: true,
            ..begins.id_ex
        },
        ..begins
    };
    vec![
        (begins, [NotShown; 2]),
        (armed(15), [NotShown; 2]),
        (armed(2), [NotShown; 2]),
        (armed(1), [MemWb; 2]),
        (armed(0), [MemWb; 2]),
        (stalls, [MemWb; 2]),
    ]
}
