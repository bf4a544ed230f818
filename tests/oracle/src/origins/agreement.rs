//! The reading of the origins beside the original, whose values show where they come from when other values change.

use super::{of_latch, of_register};
use crate::cpu_pipeline::harness::original::Original;
use crate::refusals::{self, NONE};
use crate::rows::{IdEx, Input, Origins, State};

/// Panics if the origin of a register is not what the original's forwarding shows.
pub fn check_forwarding(original: &mut Original, state: &State, register: u32) {
    if !refusals::state_breaks(state) && !refusals::register_breaks(register) {
        let shown = original.origin_of(state, register);
        assert_eq!(of_register(state, register), shown, "R{register}'s origin");
    }
}

/// Panics if the origins of a latch's operands are not what the original's execution of it shows.
pub fn check_execution(original: &mut Original, state: &State, latch: &IdEx) {
    if !refusals::state_breaks(state) && !refusals::id_ex_breaks(latch) {
        same_operands(original, state, latch, of_latch(state, latch));
    }
}

/// Panics if asking shows origins where the original's tick executes nothing, none where it executes, or others than
/// the execution shows once MEM/WB has retired.
pub fn check_asking(original: &mut Original, state: &State) {
    if refusals::standing(state) != NONE {
        return;
    }
    let (next, seen) = original.tick(state, &Input::NOTHING);
    let executes = state.running && state.wait_left == 0 && next.ex_mem.valid;
    let shows = seen.origins != Origins::default();
    assert_eq!(shows, executes, "whether origins are shown");
    if executes {
        let retired = original.retire(state);
        same_operands(original, &retired, &retired.id_ex, seen.origins);
    }
}

/// Compares the origins of the operands that a latch names; the original forwards operand A even where none is named.
fn same_operands(original: &mut Original, state: &State, latch: &IdEx, origins: Origins) {
    if latch.n_srcs >= 1 {
        let shown = original.origin_of_a(state, latch);
        assert_eq!(origins.a, shown, "operand A's origin");
    }
    if latch.n_srcs >= 2 {
        let shown = original.origin_of_b(state, latch);
        assert_eq!(origins.b, shown, "operand B's origin");
    }
}
