//! States with ticks left of a wait, and what a tick of the wait makes of them.

use crate::cpu_pipeline::harness::original::Original;
use crate::rows::{Input, MemWb, State, Waits};
use crate::tickrun::BEGIN;

/// Gives the state of a start with so many ticks left of a wait.
pub fn waiting(wait_left: u32) -> State {
    State {
        wait_left,
        ..Original::fresh().start(&BEGIN)
    }
}

/// Gives the state after so many ticks of its wait: nothing else has changed but three counters.
pub fn waited(state: &State, ticks: u32) -> State {
    let counted = u64::from(ticks);
    State {
        wait_left: state.wait_left - ticks,
        cycles: state.cycles + counted,
        running_cycles: state.running_cycles + counted,
        stall_cycles: state.stall_cycles + counted,
        ..*state
    }
}

/// Gives the same state with a MEM/WB that holds an exception, MTSR and IRET in turn.
pub fn holding_what_never_retires(state: &State) -> [State; 3] {
    let valid = MemWb {
        valid: true,
        ..state.mem_wb
    };
    let raising = MemWb {
        exception: 2,
        ..valid
    };
    let writing = MemWb {
        mtsr: [1, 0x10, 7],
        ..valid
    };
    let returning = MemWb {
        iret: true,
        ..valid
    };
    [raising, writing, returning].map(|mem_wb| State { mem_wb, ..*state })
}

/// Gives the same state with a MEM/WB that holds a HALT.
pub fn halting(state: &State) -> State {
    let mem_wb = MemWb {
        valid: true,
        halt: true,
        ..state.mem_wb
    };
    State { mem_wb, ..*state }
}

/// Gives the same state with an EX/MEM that loads or stores a word at address 8.
pub fn asking(state: &State, is_load: bool) -> State {
    let mut state = *state;
    let latch = &mut state.ex_mem;
    (latch.valid, latch.is_load, latch.is_store) = (true, is_load, !is_load);
    (latch.mem_addr, latch.mem_size) = (8, 4);
    state
}

/// Gives the same state on a machine that does not run.
pub fn stopped(state: &State) -> State {
    State {
        running: false,
        ..*state
    }
}

/// Gives the state after a tick that moves: that of the tick without its waits, with both told waits left.
pub fn moved(state: &State, given: &Input) -> State {
    let Waits { fetch, load } = given.waits;
    let plain = Input {
        waits: Waits::NONE,
        ..*given
    };
    State {
        wait_left: fetch + load,
        ..Original::fresh().tick(state, &plain).0
    }
}
