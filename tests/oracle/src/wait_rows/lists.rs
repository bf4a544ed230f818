//! Rows that run a few instructions from a start, each tick given what it asks for, in a memory that waits.

use super::Expected;
use crate::answers::Answers;
use crate::case::Case;
use crate::cpu_pipeline::harness::original::Original;
use crate::offers::{HALT, addi, normal};
use crate::refusals::NONE;
use crate::row::Row;
use crate::rows::{Answer, Input, LOAD, Offer, Seen, State, Waits};
use crate::tickrun::BEGIN;

/// What stands at the addresses behind the program.
const UNKNOWN_0: Offer = normal(0x26, [0; 3]);
const BEQ_R0_R0: Offer = normal(0x07, [0; 3]);
const LD_R5: Offer = normal(0x01, [5, 0, 8]);
const ADD_R6_R5_R5: Offer = normal(0x03, [6, 5, 5]);
const MUL_R4_R3_R3: Offer = normal(0x1b, [4, 3, 3]);
const ST_R0: Offer = normal(0x02, [0, 0, 8]);

/// The word of every load.
const LOADED: u32 = 21;

/// Which fetches wait and how long, and how long every load waits.
struct Memory {
    first_fetch: u32,
    other_fetches: u32,
    loads: u32,
}

/// What a run comes to: its ticks, stalls, flushes and retired instructions.
type Counts = [u64; 4];

/// A row: the instructions from address 0 on, the memory, and what the run and a register come to.
struct Listed(&'static [Offer], Memory, Counts, (usize, u32));

/// A memory whose fetches and loads all wait.
const fn all(fetches: u32, loads: u32) -> Memory {
    Memory {
        first_fetch: fetches,
        other_fetches: fetches,
        loads,
    }
}

/// A memory whose first fetch waits.
const fn first(first_fetch: u32) -> Memory {
    Memory {
        first_fetch,
        other_fetches: 0,
        loads: 0,
    }
}

/// The rows; the last tick is that of the HALT's retirement.
const ROWS: [Listed; 7] = [
    Listed(&[HALT], first(2), [7, 2, 0, 1], (0, 0)),
    // The fetches of the plain run's ticks 1 to 4 wait, and its tick 5 has none.
    Listed(&[HALT], all(1, 0), [9, 4, 0, 1], (0, 0)),
    // The two fetches that BEQ R0,R0,0 flushes wait too.
    Listed(&[BEQ_R0_R0, HALT], all(1, 0), [15, 7, 1, 2], (0, 0)),
    // LD R5,R0+8; ADD R6,R5,R5: the wait of the load comes on top of its user's.
    Listed(
        &[LD_R5, ADD_R6_R5_R5, HALT],
        all(0, 3),
        [11, 4, 0, 3],
        (6, 42),
    ),
    // Nothing is fetched in the two ticks of MUL's own wait.
    Listed(
        &[addi(3, 0, 7), MUL_R4_R3_R3, HALT],
        all(2, 0),
        [21, 14, 0, 3],
        (4, 49),
    ),
    // The load's tick has a fetch too, and the two waits add up.
    Listed(&[LD_R5, HALT], all(1, 2), [13, 7, 0, 2], (5, 21)),
    // A store has no wait.
    Listed(&[ST_R0, HALT], all(0, 5), [6, 0, 0, 2], (0, 0)),
];

/// Gives the lines of these rows.
pub fn rows() -> Vec<Expected> {
    ROWS.iter().flat_map(Listed::lines).collect()
}

impl Listed {
    /// Gives the lines: a start, the ticks, and the state at the end.
    fn lines(&self) -> Vec<Expected> {
        let (mut original, mut answers) = (Original::fresh(), Answers::new());
        let mut state = original.start(&BEGIN);
        let mut lines = vec![Expected {
            case: Case::ListStart(BEGIN),
            begins: Vec::new(),
        }];
        let mut left = 0;
        let Self(_, _, [ticks, ..], _) = self;
        for _ in 0..*ticks {
            let seen = original.asked(&state);
            let given = self.given(&seen, &state);
            lines.push(ticked(given, left));
            left = left.saturating_sub(1) + given.waits.fetch + given.waits.load;
            state = answers.ticked(&state, &given).1;
        }
        lines.push(self.shown(state));
        lines
    }

    /// Gives a tick what it asks for and tells its waits.
    fn given(&self, seen: &Seen, state: &State) -> Input {
        let Self(offers, memory, ..) = self;
        let offered = offers.get(seen.pc as usize / 4).unwrap_or(&UNKNOWN_0);
        let loads = seen.request == LOAD;
        let fetch = match state.cycles {
            0 => memory.first_fetch,
            _ => memory.other_fetches,
        };
        Input {
            offer: if seen.fetch { *offered } else { Offer::Nothing },
            answer: Answer {
                given: loads,
                word: if loads { LOADED } else { 0 },
            },
            waits: Waits {
                fetch: if seen.fetch { fetch } else { 0 },
                load: if loads { memory.loads } else { 0 },
            },
            ..Input::NOTHING
        }
    }

    /// Gives the line that shows the state at the end: halted, with the counts and the register of the row.
    fn shown(&self, state: State) -> Expected {
        let Self(_, _, [ticks, stalls, flushes, retired], (register, word)) = *self;
        let mut end = State {
            running: false,
            wait_left: 0,
            cycles: ticks,
            running_cycles: ticks,
            instructions_executed: retired,
            stall_cycles: stalls,
            flush_events: flushes,
            ..state
        };
        end.reg[register] = word;
        let mut begins = Vec::new();
        end.put(&mut begins);
        Expected {
            case: Case::ListShow,
            begins,
        }
    }
}

/// Makes the line of an accepted tick, which asks for nothing while ticks of a wait are left.
fn ticked(given: Input, left: u32) -> Expected {
    let mut begins = vec![NONE];
    if left > 0 {
        Seen::default().put(&mut begins);
    }
    Expected {
        case: Case::ListTick(given),
        begins,
    }
}
