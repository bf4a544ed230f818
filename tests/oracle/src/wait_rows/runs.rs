//! Rows of the runner and of the panel, from states with ticks left of a wait.

use super::Expected;
use super::states::{asking, halting, holding_what_never_retires, stopped, waited, waiting};
use crate::buffers::{BLOCK_WORDS, Block};
use crate::case::Case;
use crate::refusals::{COUNTER_FULL, NOT_RETIRABLE, OUT_OF_BOUNDS};
use crate::row::Row;
use crate::rows::{Given, State};

/// A sheet of one HALT, as the first words of a line, and its bytes.
const HALT: u32 = 0x0200_0000;
const BYTES: u32 = 5;
/// Stands for the highest limit, which no row reaches: that of a run and that of a preview.
const ENOUGH: u32 = u32::MAX;
const HIGHEST_LIMITS: [u32; 2] = [1_000_000, 10_000];

/// The ends, and the hash of no requests.
const HALTED: [u32; 2] = [0, 0];
const SPENT: [u32; 2] = [1, 0];
const LOADS: [u32; 2] = [2, 0];
const NO_REQUESTS: [u32; 2] = [0, 0x811c_9dc5];

/// Gives how a run ends that is refused.
const fn refused(number: u32) -> [u32; 2] {
    [3, number]
}

/// The state at which a run begins, its limit, its end, its ticks, and the state then if all of them are of the wait.
type Run = (State, u32, [u32; 2], u32, Option<State>);

/// Gives the lines of these rows: a sheet, then a run and a preview of each.
pub fn rows() -> Vec<Expected> {
    let mut block: Block = [0; BLOCK_WORDS];
    block[0] = HALT;
    let sheet = Expected {
        case: Case::PutSheet(0, block),
        begins: Vec::new(),
    };
    let lines = runs().into_iter().flat_map(lines);
    std::iter::once(sheet).chain(lines).collect()
}

/// Makes the lines of a row.
fn lines((state, limit, end, ticks, next): Run) -> [Expected; 2] {
    let limits = HIGHEST_LIMITS.map(|highest| if limit == ENOUGH { highest } else { limit });
    let [run, preview] = limits.map(|limit| Given {
        limit,
        sheet_length: BYTES,
        answer_count: 0,
        table_length: 0,
    });
    let mut begins = end.to_vec();
    ticks.put(&mut begins);
    if let Some(next) = next {
        NO_REQUESTS.put(&mut begins);
        next.put(&mut begins);
    }
    [Case::Run(state, run), Case::Panel(state, preview)].map(|case| Expected {
        case,
        begins: begins.clone(),
    })
}

/// The runs: the order of a turn is that without a wait, and each tick of the wait is one of the run's.
fn runs() -> Vec<Run> {
    let two = waiting(2);
    let [raising, writing, returning] = holding_what_never_retires(&two);
    let (loading, halt) = (asking(&two, true), halting(&two));
    let mut counted = two;
    counted.stall_cycles = u64::MAX - 1;
    let full = waited(&counted, 1);
    let idle = stopped(&two);
    let beyond = waiting(2_001);
    let waited_for = |state: &State| Some(waited(state, 2));
    vec![
        (two, ENOUGH, HALTED, 7, None),
        (two, 7, HALTED, 7, None),
        (two, 6, SPENT, 6, None),
        (two, 2, SPENT, 2, waited_for(&two)),
        (two, 1, SPENT, 1, Some(waited(&two, 1))),
        (two, 0, SPENT, 0, Some(two)),
        (idle, ENOUGH, HALTED, 0, Some(idle)),
        (idle, 0, HALTED, 0, Some(idle)),
        (
            raising,
            ENOUGH,
            refused(NOT_RETIRABLE),
            2,
            waited_for(&raising),
        ),
        (
            writing,
            ENOUGH,
            refused(NOT_RETIRABLE),
            2,
            waited_for(&writing),
        ),
        (
            returning,
            ENOUGH,
            refused(NOT_RETIRABLE),
            2,
            waited_for(&returning),
        ),
        (raising, 2, SPENT, 2, waited_for(&raising)),
        (loading, ENOUGH, LOADS, 2, waited_for(&loading)),
        (loading, 1, SPENT, 1, Some(waited(&loading, 1))),
        (counted, ENOUGH, refused(COUNTER_FULL), 1, Some(full)),
        (halt, ENOUGH, HALTED, 3, None),
        (waiting(2_000), 2_005, HALTED, 2_005, None),
        (beyond, ENOUGH, refused(OUT_OF_BOUNDS), 0, Some(beyond)),
        (
            stopped(&beyond),
            ENOUGH,
            refused(OUT_OF_BOUNDS),
            0,
            Some(stopped(&beyond)),
        ),
    ]
}
