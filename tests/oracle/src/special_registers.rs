//! The question for a special register's word, by a reading of RULES 25 of the harness's own.

use crate::cpu_pipeline::harness::Numbers;
use crate::cpu_pipeline::harness::original::Original;
use crate::refusals::{self, NONE};
use crate::rows::{Decoded, IdEx, Input, Seen, Special, State};

/// Position of MFSR in the enum of Normal instructions.
pub const MFSR: u32 = 0x29;

/// Gives the register whose word a tick asks for, or none: that of an MFSR which executes in it.
pub fn wanted(state: &State) -> Option<u32> {
    wanted_by(state.user, &state.id_ex).filter(|_| executes(state))
}

/// Gives the register whose word the execution of a latch asks for, or none.
pub fn wanted_by(user: bool, latch: &IdEx) -> Option<u32> {
    match latch.decoded {
        Decoded::Normal(Numbers {
            variant: MFSR,
            fields: [_, register, _],
        }) if !user && latch.exception == 0 => Some(register),
        _ => None,
    }
}

/// Tells whether an MFSR in ID/EX executes; it begins no wait itself, but one may go on, in EX or for the memory.
fn executes(state: &State) -> bool {
    let halts = state.mem_wb.valid && state.mem_wb.halt;
    let waits = state.ex_armed && state.ex_cycles_left > 1;
    state.running && state.wait_left == 0 && state.id_ex.valid && !halts && !waits
}

/// Adds the register that a tick asks for to what else it asks for.
pub fn name(seen: Seen, state: &State) -> Seen {
    let register = wanted(state);
    Seen {
        special: register.is_some(),
        register: register.unwrap_or(0),
        ..seen
    }
}

/// Gives the answer of a table to a tick: the word at the place of the register's number.
pub fn answer(table: &[u32], state: &State) -> Special {
    match wanted(state) {
        None => Special::NotGiven,
        Some(register) => word_at(table, register).map_or(Special::NoSuchRegister, Special::Word),
    }
}

/// Gives the word of a register, or nothing for a number outside the table.
fn word_at(table: &[u32], register: u32) -> Option<u32> {
    table.get(register as usize).copied()
}

/// Panics if a tick that asks gives the same for a word and for no such register, or one that does not ask differs.
pub fn check(original: &mut Original, state: &State) {
    if refusals::standing(state) != NONE {
        return;
    }
    let [word, none] = [Special::Word(0), Special::NoSuchRegister].map(|special| {
        let given = Input {
            special,
            ..Input::NOTHING
        };
        original.tick(state, &given).0
    });
    assert_eq!(word != none, wanted(state).is_some(), "the question");
}
