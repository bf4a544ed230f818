//! The events of a tick by the state before it, and where they go.

use super::event::{Access, Event};
use crate::rows::{Answer, ExMem, MemWb, State};

/// The registers that CPUID writes, and what it writes to the first; the second gets the feature word.
const IDENTITY: u32 = 1;
const FEATURES: u32 = 2;
const IDENTIFICATION: u32 = 0x5352_4332;

/// Gives the events of a tick that is not refused, in the order in which they are logged; none while a wait for the
/// memory is left.
pub fn of_tick(state: &State, answer: &Answer) -> Vec<Event> {
    let mut events = Vec::new();
    if state.running && state.wait_left == 0 {
        retire(&state.mem_wb, state.features, &mut events);
        events.extend(request(state, answer.word));
    }
    events
}

/// Appends what retirement does: the instruction, then the registers that it writes.
fn retire(latch: &MemWb, features: u32, events: &mut Vec<Event>) {
    if !latch.valid {
        return;
    }
    events.push(Event::Retired(latch.pc));
    if latch.cpuid {
        events.push(Event::Written(IDENTITY, IDENTIFICATION));
        events.push(Event::Written(FEATURES, features));
    }
    let register = destination(latch);
    events.extend(register.map(|register| Event::Written(register, latch.value)));
}

/// Gives the register that gets the value of MEM/WB, or none; nothing is written to R0.
fn destination(latch: &MemWb) -> Option<u32> {
    let register = latch.dest.checked_sub(1)?;
    (latch.writeback && register != 0).then_some(register)
}

/// Gives the load or store of EX/MEM, or none; a HALT that retires has emptied the latch before.
fn request(state: &State, answer: u32) -> Option<Event> {
    let latch = &state.ex_mem;
    let halts = state.mem_wb.valid && state.mem_wb.halt;
    if halts || !latch.valid || latch.mem_size == 0 {
        return None;
    }
    if latch.is_load {
        Some(Event::Loaded(access(latch, answer)))
    } else if latch.is_store {
        Some(Event::Stored(access(latch, cut(latch))))
    } else {
        None
    }
}

/// Gives the access of EX/MEM with its word.
fn access(latch: &ExMem, word: u32) -> Access {
    Access {
        address: latch.mem_addr,
        width: latch.mem_size,
        word,
    }
}

/// Gives the stored word, cut to the width.
fn cut(latch: &ExMem) -> u32 {
    match latch.mem_size {
        1 => latch.store_value % 0x100,
        2 => latch.store_value % 0x1_0000,
        _ => latch.store_value,
    }
}

/// Gives the entries of some events, one behind the other.
pub fn bytes(events: &[Event]) -> Vec<u8> {
    let mut bytes = Vec::new();
    events.iter().for_each(|event| event.put(&mut bytes));
    bytes
}

/// Puts the entries into the log from the first free place on and gives the next one, or nothing where they do not fit.
pub fn append(events: &[Event], log: &mut [u8], free: u64) -> Option<u64> {
    let entries = bytes(events);
    let room = (log.len() as u64).checked_sub(free)?;
    if entries.len() as u64 > room {
        return None;
    }
    log[free as usize..][..entries.len()].copy_from_slice(&entries);
    Some(free + entries.len() as u64)
}
