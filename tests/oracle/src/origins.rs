//! The origins of operands, by a reading of RULES 26 of the harness's own.

mod agreement;

pub use agreement::{check_asking, check_execution, check_forwarding};

use crate::cpu_pipeline::harness::original::Original;
use crate::rows::{ExMem, IdEx, MemWb, Origin, Origins, State};

/// The registers that CPUID writes.
const WRITTEN_BY_CPUID: [u32; 2] = [1, 2];

/// Gives the origin of a register's value, in the order in which forwarding looks for it.
pub fn of_register(state: &State, register: u32) -> Origin {
    if register == 0 {
        Origin::ZeroRegister
    } else if has_its_result(&state.ex_mem, register) {
        Origin::ExMem
    } else if state.ex_mem.valid && state.ex_mem.cpuid && WRITTEN_BY_CPUID.contains(&register) {
        Origin::ExMemCpuid
    } else if writes(&state.mem_wb, register) {
        Origin::MemWb
    } else if state.mem_wb.valid && state.mem_wb.cpuid && WRITTEN_BY_CPUID.contains(&register) {
        Origin::MemWbCpuid
    } else {
        Origin::RegisterFile
    }
}

/// Tells whether EX/MEM has the word that it will write to a register; a load has none yet.
fn has_its_result(latch: &ExMem, register: u32) -> bool {
    latch.valid && latch.writeback && !latch.is_load && latch.dest == register + 1
}

/// Tells whether MEM/WB writes its value to a register.
fn writes(latch: &MemWb, register: u32) -> bool {
    latch.valid && latch.writeback && latch.dest == register + 1
}

/// Gives the origins that the execution of a latch passes on, whatever the latch holds.
pub fn of_latch(state: &State, latch: &IdEx) -> Origins {
    Origins {
        a: of_source(state, latch.src0, latch.n_srcs >= 1),
        b: of_source(state, latch.src1, latch.n_srcs >= 2),
    }
}

/// Gives the origin of a source, the register file for one that the latch does not name.
fn of_source(state: &State, register: u32, is_named: bool) -> Origin {
    if is_named {
        of_register(state, register)
    } else {
        Origin::RegisterFile
    }
}

/// Gives the origins that asking shows: those that the tick's execution will pass on, none where nothing executes.
pub fn shown(original: &mut Original, state: &State) -> Origins {
    if executes(original, state) {
        of_latch(state, &state.id_ex)
    } else {
        Origins::default()
    }
}

/// Tells whether ID/EX executes in a tick; a HALT that retires in it empties ID/EX first, and nothing does while a wait
/// for the memory is left.
fn executes(original: &mut Original, state: &State) -> bool {
    let halts = state.mem_wb.valid && state.mem_wb.halt;
    state.running && state.wait_left == 0 && !halts && state.id_ex.valid && !waits(original, state)
}

/// Tells whether a wait in EX goes on or begins; a load-use stall comes before one that would begin.
fn waits(original: &mut Original, state: &State) -> bool {
    if state.ex_armed {
        state.ex_cycles_left > 1
    } else {
        original.latency(&state.id_ex.decoded) > 0 && !stalls(original, state)
    }
}

/// Tells whether IF/ID's instruction uses the load in ID/EX.
fn stalls(original: &mut Original, state: &State) -> bool {
    let sources = original.sources(&state.if_id);
    state.if_id.valid && original.hazard(&state.id_ex, sources)
}
