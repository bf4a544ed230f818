//! Sets the original's fields from plain numbers.

use super::unknown_words::{UnknownWords, instruction_of};
use super::{
    Decoded, ExMem, Exception, IdEx, IfId, InstructionMode, MemWb, PipelineCpu, RawInstr,
    SystemState, short_numbers,
};
use crate::rows;

/// Sets every field that the state holds, over the given privilege state.
pub fn state(
    core: &mut PipelineCpu,
    row: &rows::State,
    system: &SystemState,
    words: &mut UnknownWords,
) {
    core.reg = row.reg;
    core.fetch_pc = row.fetch_pc;
    core.fetch_mode = mode(row.fetch_mode);
    core.retire_pc = row.retire_pc;
    core.retire_mode = mode(row.retire_mode);
    core.running = row.running;
    core.sys = *system;
    core.sys.user = row.user;
    core.if_id = if_id(&row.if_id, words);
    core.id_ex = id_ex(&row.id_ex);
    core.ex_mem = ex_mem(&row.ex_mem);
    core.mem_wb = mem_wb(&row.mem_wb);
    core.ex_cycles_left = row.ex_cycles_left;
    core.ex_armed = row.ex_armed;
    core.cache_stall = row.wait_left;
    core.cycles = row.cycles.into();
    core.running_cycles = row.running_cycles.into();
    core.instructions_executed = row.instructions_executed.into();
    core.stall_cycles = row.stall_cycles.into();
    core.flush_events = row.flush_events.into();
}

/// Makes the latch between fetch and decode.
pub fn if_id(row: &rows::IfId, words: &mut UnknownWords) -> IfId {
    IfId {
        valid: row.valid,
        pc: row.pc,
        mode: mode(row.mode),
        raw: match row.raw {
            rows::Raw::Normal(instruction) => RawInstr::Normal(words.word_of(instruction)),
            rows::Raw::Short(halfword) => RawInstr::Short(halfword as u16),
        },
        fetch_fault: None,
    }
}

/// Makes the latch between decode and execute, with the third source that nothing reads.
pub fn id_ex(row: &rows::IdEx) -> IdEx {
    IdEx {
        valid: row.valid,
        pc: row.pc,
        mode: mode(row.mode),
        decoded: decoded(&row.decoded),
        predicted_taken: row.predicted_taken,
        srcs: [row.src0 as usize, row.src1 as usize, 0],
        n_srcs: row.n_srcs as u8,
        dest: destination(row.dest),
        op_a: row.op_a,
        op_b: row.op_b,
        is_load: row.is_load,
        is_store: row.is_store,
        exception: exception(row.exception),
    }
}

/// Makes the latch between execute and memory.
pub fn ex_mem(row: &rows::ExMem) -> ExMem {
    ExMem {
        valid: row.valid,
        pc: row.pc,
        mode: mode(row.mode),
        decoded: decoded(&row.decoded),
        dest: destination(row.dest),
        writeback: row.writeback,
        is_load: row.is_load,
        is_store: row.is_store,
        alu_result: row.alu_result,
        store_value: row.store_value,
        mem_addr: row.mem_addr,
        mem_size: row.mem_size as u8,
        is_mem_read: row.is_mem_read,
        branch_taken: row.branch_taken,
        branch_target: row.branch_target,
        branch_new_mode: new_mode(row.branch_new_mode),
        halt: row.halt,
        iret: row.iret,
        cpuid: row.cpuid,
        link_value: None,
        exception: exception(row.exception),
        mtsr: special_write(row.mtsr),
    }
}

/// Makes the latch between memory and retirement.
pub fn mem_wb(row: &rows::MemWb) -> MemWb {
    MemWb {
        valid: row.valid,
        pc: row.pc,
        mode: mode(row.mode),
        dest: destination(row.dest),
        writeback: row.writeback,
        value: row.value,
        halt: row.halt,
        iret: row.iret,
        cpuid: row.cpuid,
        link_value: None,
        branch_taken: row.branch_taken,
        branch_target: row.branch_target,
        branch_new_mode: new_mode(row.branch_new_mode),
        exception: exception(row.exception),
        mtsr: special_write(row.mtsr),
    }
}

/// Makes a decoded instruction.
pub fn decoded(row: &rows::Decoded) -> Decoded {
    match *row {
        rows::Decoded::Normal(numbers) => Decoded::Normal(instruction_of(numbers)),
        rows::Decoded::Short(numbers) => Decoded::Short(short_numbers::instruction_of(numbers)),
    }
}

/// Gives the mode with this number.
pub fn mode(number: u32) -> InstructionMode {
    if number == rows::NORMAL {
        InstructionMode::Normal
    } else {
        InstructionMode::Short
    }
}

/// Gives the mode to change to, or none.
fn new_mode(number: u32) -> Option<InstructionMode> {
    number.checked_sub(1).map(mode)
}

/// Gives the destination, or none.
fn destination(number: u32) -> Option<usize> {
    number.checked_sub(1).map(|register| register as usize)
}

/// Gives the exception, or none.
fn exception(number: u32) -> Option<Exception> {
    match number {
        0 => None,
        1 => Some(Exception::PrivilegedInstruction),
        2 => Some(Exception::IllegalInstruction),
        _ => Some(Exception::Syscall((number - 3) as u16)),
    }
}

/// Gives the special register to write and its value, or none.
fn special_write([flag, register, value]: [u32; 3]) -> Option<(u16, u32)> {
    (flag != 0).then_some((register as u16, value))
}
