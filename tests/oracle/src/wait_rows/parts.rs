//! Rows of asking and of the parts by themselves, on states with ticks left of a wait.

use super::Expected;
use super::states::{asking, halting, holding_what_never_retires, stopped, waiting};
use crate::case::Case;
use crate::cpu_pipeline::harness::Numbers;
use crate::cpu_pipeline::harness::original::Original;
use crate::refusals::{COUNTER_FULL, NONE, NOT_RETIRABLE, OUT_OF_BOUNDS};
use crate::row::Row;
use crate::rows::{Decoded, IfId, NORMAL, Raw, Seen, Special, State};
use crate::special_registers::MFSR;

/// The most ticks that can be left.
const MOST: u32 = 2_000;

/// Gives the lines of these rows.
pub fn rows() -> Vec<Expected> {
    [asked(), retired(), executed()]
        .into_iter()
        .flatten()
        .collect()
}

/// Asking shows nothing while a wait is left, and gives no 12.
fn asked() -> Vec<Expected> {
    let one = waiting(1);
    let [raising, ..] = holding_what_never_retires(&one);
    let mut counted = one;
    counted.flush_events = u64::MAX;
    let quiet = [
        one,
        waiting(MOST),
        stopped(&one),
        asking(&one, true),
        asking(&one, false),
        reading(&one),
        raising,
        stopped(&raising),
    ];
    let quiet = quiet.map(|state| (state, NONE));
    let refused = [
        (waiting(MOST + 1), OUT_OF_BOUNDS),
        (stopped(&waiting(MOST + 1)), OUT_OF_BOUNDS),
        (counted, COUNTER_FULL),
    ];
    let rows = quiet.into_iter().chain(refused);
    rows.map(|(state, code)| {
        let mut begins = vec![code];
        Seen::default().put(&mut begins);
        Expected {
            case: Case::Ask(state),
            begins,
        }
    })
    .collect()
}

/// Gives the same state with an MFSR in ID/EX, which would ask and show origins.
fn reading(state: &State) -> State {
    let mut state = *state;
    let latch = &mut state.id_ex;
    latch.valid = true;
    latch.decoded = Decoded::Normal(Numbers {
        variant: MFSR,
        fields: [1, 3, 0],
    });
    latch.dest = 2;
    state
}

/// Retirement by itself does not look at the wait, and leaves it as it is.
fn retired() -> Vec<Expected> {
    let (one, three) = (waiting(1), waiting(3));
    let [raising, writing, returning] = holding_what_never_retires(&one);
    let refused = [
        (raising, NOT_RETIRABLE),
        (writing, NOT_RETIRABLE),
        (returning, NOT_RETIRABLE),
        (waiting(MOST + 1), OUT_OF_BOUNDS),
    ];
    let refused = refused.map(|(state, code)| retirement(state, code, state));
    let halt = halting(&three);
    let mut halted = stopped(&halt);
    // A HALT at address 0 counts as retired, and the next address is behind it.
    (halted.instructions_executed, halted.retire_pc) = (1, 4);
    let accepted = [(one, one), (waiting(MOST), waiting(MOST)), (halt, halted)];
    let accepted = accepted.map(|(state, next)| retirement(state, NONE, next));
    refused.into_iter().chain(accepted).collect()
}

/// Makes the line of retirement by itself.
fn retirement(state: State, code: u32, next: State) -> Expected {
    let mut begins = vec![code];
    if code == NONE {
        next.put(&mut begins);
    }
    Expected {
        case: Case::Retire(state),
        begins,
    }
}

/// Forwarding, execute and decode by themselves look only at the limit.
fn executed() -> Vec<Expected> {
    let fetched = IfId {
        valid: true,
        pc: 0,
        mode: NORMAL,
        raw: Raw::Normal(Numbers {
            variant: 0x04,
            fields: [3, 0, 7],
        }),
    };
    let decoded = Original::fresh().decode(&waiting(0), &fetched);
    let limits = [(MOST, NONE), (MOST + 1, OUT_OF_BOUNDS)];
    let lines = limits.map(|(ticks, code)| {
        let state = waiting(ticks);
        let cases = [
            Case::Forwarded(state, 1),
            Case::Execute(state, decoded, Special::NotGiven),
            Case::Decode(state, fetched),
        ];
        cases.map(|case| Expected {
            case,
            begins: vec![code],
        })
    });
    lines.into_iter().flatten().collect()
}
