//! What an instruction does, RULES 4.

use super::{normal, short};
use crate::rows::{Begin, NORMAL, Offer};
use crate::runner::Task;
use crate::sheet;

/// What an instruction does once its operands are read.
#[derive(Debug, Clone, Copy, PartialEq, Eq)]
pub enum Effect {
    /// Raises an exception, or is MTSR or IRET: it is not done.
    Stop,
    /// Goes on and leaves the registers: NOP, a store, a branch that is not taken.
    On,
    Halt,
    Cpuid,
    /// Puts the next load answer into a register.
    Load(u32),
    /// Puts a word into a register.
    Put(u32, u32),
    /// Goes to an address in a mode.
    Go(u32, u32),
    /// The same, with the next address put into R31.
    Link(u32, u32),
}

/// Gives the effect of what a sheet offers at the place of the values.
pub fn at(values: &Begin, task: &Task) -> Effect {
    match sheet::offer(task.sheet, values.pc, values.mode) {
        Offer::Normal(instruction) => normal::effect(values, &instruction, task.table),
        Offer::Short(halfword) => short::effect(values, halfword),
        Offer::Nothing => unreachable!("a sheet offers an instruction at every place"),
    }
}

/// Gives what a register reads as.
pub fn read(values: &Begin, register: u32) -> u32 {
    match register {
        0 => 0,
        _ => values.reg[register as usize],
    }
}

/// Gives the address behind the instruction at the place of the values.
pub fn next(values: &Begin) -> u32 {
    let size = if values.mode == NORMAL { 4 } else { 2 };
    values.pc.wrapping_add(size)
}

/// Gives the address that an offset leads to.
pub fn by_offset(values: &Begin, offset: u32) -> u32 {
    next(values).wrapping_add(offset)
}
