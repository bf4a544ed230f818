//! The four latches; dest, exception and new mode are coded with 0 for none.

use super::{Decoded, Raw};
use crate::row::row;

row! {
    /// Between fetch and decode.
    IfId {
        valid: bool,
        pc: u32,
        mode: u32,
        raw: Raw,
    }
}

row! {
    /// Between decode and execute.
    IdEx {
        valid: bool,
        pc: u32,
        mode: u32,
        decoded: Decoded,
        predicted_taken: bool,
        src0: u32,
        src1: u32,
        n_srcs: u32,
        dest: u32,
        op_a: u32,
        op_b: u32,
        is_load: bool,
        is_store: bool,
        exception: u32,
    }
}

row! {
    /// Between execute and memory.
    ExMem {
        valid: bool,
        pc: u32,
        mode: u32,
        decoded: Decoded,
        dest: u32,
        writeback: bool,
        is_load: bool,
        is_store: bool,
        alu_result: u32,
        store_value: u32,
        mem_addr: u32,
        mem_size: u32,
        is_mem_read: bool,
        branch_taken: bool,
        branch_target: u32,
        branch_new_mode: u32,
        halt: bool,
        iret: bool,
        cpuid: bool,
        exception: u32,
        mtsr: [u32; 3],
    }
}

row! {
    /// Between memory and retirement.
    MemWb {
        valid: bool,
        pc: u32,
        mode: u32,
        dest: u32,
        writeback: bool,
        value: u32,
        halt: bool,
        iret: bool,
        cpuid: bool,
        branch_taken: bool,
        branch_target: u32,
        branch_new_mode: u32,
        exception: u32,
        mtsr: [u32; 3],
    }
}
