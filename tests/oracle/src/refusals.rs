//! The refusals of RULES 19, read by themselves; the original refuses nothing.

use crate::cpu_pipeline::harness::Numbers;
use crate::rows::{
    Decoded, ExMem, IdEx, IfId, Input, LOAD, MemWb, NORMAL, Offer, Raw, SHORT, Seen, State, Waits,
};

/// Accepted.
pub const NONE: u32 = 0;
/// The numbers of the refusals, RULES 19.1.
pub const NORMAL_REGISTER: u32 = 1;
pub const UNWANTED_OFFER: u32 = 3;
pub const UNWANTED_ANSWER: u32 = 4;
pub const BAD_RECORD: u32 = 5;
pub const BAD_LENGTH: u32 = 6;
pub const LIMIT_TOO_HIGH: u32 = 7;
pub const PANEL_SHEET_TOO_LONG: u32 = 8;
pub const PANEL_LIMIT_TOO_HIGH: u32 = 9;
pub const UNWANTED_SPECIAL: u32 = 10;
pub const OUT_OF_BOUNDS: u32 = 11;
pub const NOT_RETIRABLE: u32 = 12;
pub const COUNTER_FULL: u32 = 13;
pub const LOG_FULL: u32 = 14;
pub const SHORT_LIST: u32 = 15;
pub const BAD_ENTRY: u32 = 21;
pub const ENTRY_CUT_SHORT: u32 = 22;
pub const BAD_WAIT: u32 = 24;

/// The longest wait of one fetch or load, and the most ticks left of waits: those of both together.
pub const LONGEST_WAIT: u32 = 1_000;
pub const MOST_LEFT: u32 = 2 * LONGEST_WAIT;

/// Tells the refusal of a tick or of asking by where the machine stands, or none; while a wait is left nothing retires.
pub fn standing(state: &State) -> u32 {
    where_it_stands(state, state.wait_left == 0)
}

/// Tells the refusal of retirement by itself by where the machine stands, or none; it retires during a wait too.
pub fn retirement(state: &State) -> u32 {
    where_it_stands(state, true)
}

/// Tells the refusal by where a machine stands that is to retire or not, or none.
fn where_it_stands(state: &State, retires: bool) -> u32 {
    if state_breaks(state) {
        OUT_OF_BOUNDS
    } else if retires && state.running && holds_what_never_retires(&state.mem_wb) {
        NOT_RETIRABLE
    } else if a_counter_is_full(state) {
        COUNTER_FULL
    } else {
        NONE
    }
}

/// Tells the refusal by what is given to a tick that asks for this, or none.
pub fn offered(given: &Input, seen: &Seen) -> u32 {
    let Input {
        offer,
        answer,
        special,
        waits,
    } = given;
    let of_the_instruction = match offer {
        Offer::Normal(offered) => instruction(offered),
        Offer::Nothing | Offer::Short(_) => NONE,
    };
    match of_the_instruction {
        NONE if !is_wanted(offer, seen) => UNWANTED_OFFER,
        NONE if answer.given != (seen.request == LOAD) => UNWANTED_ANSWER,
        NONE if special.is_given() != seen.special => UNWANTED_SPECIAL,
        NONE if waits_break(*waits, seen) => BAD_WAIT,
        code => code,
    }
}

/// Tells the refusal of a Normal instruction wherever it is offered, or none.
pub fn instruction(instruction: &Numbers) -> u32 {
    if names_a_register_above_31(instruction) {
        NORMAL_REGISTER
    } else {
        NONE
    }
}

/// Tells whether a tick that asks for this wants an offer of this kind.
fn is_wanted(offer: &Offer, seen: &Seen) -> bool {
    match offer {
        Offer::Nothing => !seen.fetch,
        Offer::Normal(_) => seen.fetch && seen.mode == NORMAL,
        Offer::Short(_) => seen.fetch && seen.mode == SHORT,
    }
}

/// Tells whether a wait is told that the tick which asks for this cannot have.
fn waits_break(waits: Waits, seen: &Seen) -> bool {
    wait_breaks(waits.fetch, seen.fetch) || wait_breaks(waits.load, seen.request == LOAD)
}

/// Tells whether a wait is too long, or told without what could wait.
fn wait_breaks(ticks: u32, is_wanted: bool) -> bool {
    ticks > LONGEST_WAIT || ticks > 0 && !is_wanted
}

/// Tells whether some latch or a wait of a state is out of bounds.
pub fn state_breaks(state: &State) -> bool {
    if_id_breaks(&state.if_id)
        || id_ex_breaks(&state.id_ex)
        || ex_mem_breaks(&state.ex_mem)
        || destination_breaks(state.mem_wb.dest)
        || state.ex_cycles_left > 15
        || state.wait_left > MOST_LEFT
}

/// Tells whether a fetched instruction is out of bounds, in a valid latch or not.
pub fn if_id_breaks(latch: &IfId) -> bool {
    match &latch.raw {
        Raw::Normal(instruction) => names_a_register_above_31(instruction),
        Raw::Short(_) => false,
    }
}

/// Tells whether a decoded latch is out of bounds, unused sources included.
pub fn id_ex_breaks(latch: &IdEx) -> bool {
    decoded_breaks(&latch.decoded)
        || register_breaks(latch.src0)
        || register_breaks(latch.src1)
        || destination_breaks(latch.dest)
        || latch.n_srcs > 2
}

/// Tells whether an executed latch is out of bounds.
pub fn ex_mem_breaks(latch: &ExMem) -> bool {
    decoded_breaks(&latch.decoded)
        || destination_breaks(latch.dest)
        || ![0, 1, 2, 4].contains(&latch.mem_size)
}

/// Tells whether a decoded instruction is out of bounds; the numbers of a short one are not tested.
pub fn decoded_breaks(decoded: &Decoded) -> bool {
    match decoded {
        Decoded::Normal(instruction) => names_a_register_above_31(instruction),
        Decoded::Short(_) => false,
    }
}

/// Tells whether a register number is out of bounds.
pub fn register_breaks(register: u32) -> bool {
    register > 31
}

/// Tells whether a coded destination, none or register plus one, is out of bounds.
fn destination_breaks(dest: u32) -> bool {
    dest > 0 && register_breaks(dest - 1)
}

/// Tells whether a Normal instruction names a register above 31.
fn names_a_register_above_31(instruction: &Numbers) -> bool {
    instruction.fields[..register_count(instruction.variant)]
        .iter()
        .any(|&register| register_breaks(register))
}

/// Says how many registers a kind of Normal instruction names; they are its first fields.
pub fn register_count(variant: u32) -> usize {
    match variant {
        0x00 | 0x09 | 0x0a | 0x0c | 0x0d | 0x11 | 0x12 | 0x26..=0x28 => 0,
        0x0b | 0x0e..=0x10 | 0x24 | 0x25 | 0x29 | 0x2a => 1,
        0x01 | 0x02 | 0x04 | 0x07 | 0x08 | 0x20..=0x23 => 2,
        _ => 3,
    }
}

/// Tells whether the oldest latch holds an exception, MTSR or IRET.
pub fn holds_what_never_retires(latch: &MemWb) -> bool {
    latch.valid && (latch.exception != 0 || latch.mtsr[0] != 0 || latch.iret)
}

/// Tells whether one of the five counters is at its top.
fn a_counter_is_full(state: &State) -> bool {
    [
        state.cycles,
        state.running_cycles,
        state.instructions_executed,
        state.stall_cycles,
        state.flush_events,
    ]
    .contains(&u64::MAX)
}
