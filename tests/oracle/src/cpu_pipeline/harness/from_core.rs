//! Reads the original's fields as plain numbers.

use super::unknown_words::UnknownWords;
use super::{
    Decoded, ExMem, Exception, IdEx, IfId, InstructionMode, MemWb, PipelineCpu, RawInstr,
    short_numbers,
};
use crate::rows;

/// Reads every field that the state holds; the feature word is no field of the original.
pub fn state(core: &PipelineCpu, features: u32, words: &UnknownWords) -> rows::State {
    rows::State {
        reg: core.reg,
        fetch_pc: core.fetch_pc,
        fetch_mode: mode(core.fetch_mode),
        retire_pc: core.retire_pc,
        retire_mode: mode(core.retire_mode),
        running: core.running,
        user: core.sys.user,
        features,
        if_id: if_id(&core.if_id, words),
        id_ex: id_ex(&core.id_ex, words),
        ex_mem: ex_mem(&core.ex_mem, words),
        mem_wb: mem_wb(&core.mem_wb),
        ex_cycles_left: core.ex_cycles_left,
        ex_armed: core.ex_armed,
        wait_left: core.cache_stall,
        cycles: core.cycles as u64,
        running_cycles: core.running_cycles as u64,
        instructions_executed: core.instructions_executed as u64,
        stall_cycles: core.stall_cycles as u64,
        flush_events: core.flush_events as u64,
    }
}

/// Reads the latch between fetch and decode.
fn if_id(latch: &IfId, words: &UnknownWords) -> rows::IfId {
    assert!(latch.fetch_fault.is_none(), "a fetch is never denied");
    rows::IfId {
        valid: latch.valid,
        pc: latch.pc,
        mode: mode(latch.mode),
        raw: match latch.raw {
            RawInstr::Normal(word) => {
                rows::Raw::Normal(words.numbers_of(PipelineCpu::decode(word)))
            }
            RawInstr::Short(halfword) => rows::Raw::Short(halfword.into()),
        },
    }
}

/// Reads the latch between decode and execute.
pub fn id_ex(latch: &IdEx, words: &UnknownWords) -> rows::IdEx {
    assert_eq!(latch.srcs[2], 0, "the third source is never set");
    rows::IdEx {
        valid: latch.valid,
        pc: latch.pc,
        mode: mode(latch.mode),
        decoded: decoded(&latch.decoded, words),
        predicted_taken: latch.predicted_taken,
        src0: latch.srcs[0] as u32,
        src1: latch.srcs[1] as u32,
        n_srcs: latch.n_srcs.into(),
        dest: destination(latch.dest),
        op_a: latch.op_a,
        op_b: latch.op_b,
        is_load: latch.is_load,
        is_store: latch.is_store,
        exception: exception(latch.exception),
    }
}

/// Reads the latch between execute and memory.
pub fn ex_mem(latch: &ExMem, words: &UnknownWords) -> rows::ExMem {
    assert!(latch.link_value.is_none(), "the link value is never set");
    rows::ExMem {
        valid: latch.valid,
        pc: latch.pc,
        mode: mode(latch.mode),
        decoded: decoded(&latch.decoded, words),
        dest: destination(latch.dest),
        writeback: latch.writeback,
        is_load: latch.is_load,
        is_store: latch.is_store,
        alu_result: latch.alu_result,
        store_value: latch.store_value,
        mem_addr: latch.mem_addr,
        mem_size: latch.mem_size.into(),
        is_mem_read: latch.is_mem_read,
        branch_taken: latch.branch_taken,
        branch_target: latch.branch_target,
        branch_new_mode: new_mode(latch.branch_new_mode),
        halt: latch.halt,
        iret: latch.iret,
        cpuid: latch.cpuid,
        exception: exception(latch.exception),
        mtsr: special_write(latch.mtsr),
    }
}

/// Reads the latch between memory and retirement.
fn mem_wb(latch: &MemWb) -> rows::MemWb {
    assert!(latch.link_value.is_none(), "the link value is never set");
    rows::MemWb {
        valid: latch.valid,
        pc: latch.pc,
        mode: mode(latch.mode),
        dest: destination(latch.dest),
        writeback: latch.writeback,
        value: latch.value,
        halt: latch.halt,
        iret: latch.iret,
        cpuid: latch.cpuid,
        branch_taken: latch.branch_taken,
        branch_target: latch.branch_target,
        branch_new_mode: new_mode(latch.branch_new_mode),
        exception: exception(latch.exception),
        mtsr: special_write(latch.mtsr),
    }
}

/// Reads a decoded instruction.
fn decoded(decoded: &Decoded, words: &UnknownWords) -> rows::Decoded {
    match *decoded {
        Decoded::Normal(instruction) => rows::Decoded::Normal(words.numbers_of(instruction)),
        Decoded::Short(instruction) => rows::Decoded::Short(short_numbers::of(instruction)),
    }
}

/// Gives the number of a mode.
pub fn mode(mode: InstructionMode) -> u32 {
    match mode {
        InstructionMode::Normal => rows::NORMAL,
        InstructionMode::Short => rows::SHORT,
    }
}

/// Gives the number of a change of mode.
fn new_mode(new_mode: Option<InstructionMode>) -> u32 {
    new_mode.map_or(0, |new_mode| mode(new_mode) + 1)
}

/// Gives the number of a destination.
fn destination(register: Option<usize>) -> u32 {
    register.map_or(0, |register| register as u32 + 1)
}

/// Gives the number of an exception; the other three are never raised here.
fn exception(exception: Option<Exception>) -> u32 {
    match exception {
        None => 0,
        Some(Exception::PrivilegedInstruction) => 1,
        Some(Exception::IllegalInstruction) => 2,
        Some(Exception::Syscall(number)) => 3 + u32::from(number),
        Some(other) => unreachable!("{other:?} is never raised here"),
    }
}

/// Gives the three numbers of a write to a special register.
fn special_write(write: Option<(u16, u32)>) -> [u32; 3] {
    write.map_or([0; 3], |(register, value)| [1, register.into(), value])
}
