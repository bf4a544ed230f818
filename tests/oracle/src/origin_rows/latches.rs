//! Latches that are handed in, each with only what is named.

use crate::cpu_pipeline::harness::Numbers;
use crate::cpu_pipeline::harness::original::Original;
use crate::rows::{Decoded, ExMem, IdEx, MemWb, State};
use crate::tickrun::BEGIN;

/// Positions of the instructions in the enum.
pub const NOP: u32 = 0x00;
pub const ADD: u32 = 0x03;
pub const MUL: u32 = 0x1b;

/// Makes the state of a start, with all latches empty.
pub fn empty() -> State {
    Original::fresh().start(&BEGIN)
}

/// Makes an EX/MEM that writes a register.
pub fn ex_mem(register: u32) -> ExMem {
    ExMem {
        valid: true,
        writeback: true,
        dest: register + 1,
        alu_result: 7,
        ..empty().ex_mem
    }
}

/// Makes a MEM/WB that writes a register.
pub fn mem_wb(register: u32) -> MemWb {
    MemWb {
        valid: true,
        writeback: true,
        dest: register + 1,
        value: 9,
        ..empty().mem_wb
    }
}

/// Makes an EX/MEM with CPUID.
pub fn identifying_ex_mem() -> ExMem {
    ExMem {
        valid: true,
        cpuid: true,
        ..empty().ex_mem
    }
}

/// Makes a MEM/WB with CPUID.
pub fn identifying_mem_wb() -> MemWb {
    MemWb {
        valid: true,
        cpuid: true,
        ..empty().mem_wb
    }
}

/// Makes an ID/EX of a kind of instruction into R4 that names so many sources, of R3 and R3.
pub fn id_ex(variant: u32, n_srcs: u32) -> IdEx {
    IdEx {
        valid: true,
        decoded: Decoded::Normal(Numbers {
            variant,
            fields: if variant == NOP { [0; 3] } else { [4, 3, 3] },
        }),
        src0: 3,
        src1: 3,
        n_srcs,
        dest: if variant == NOP { 0 } else { 5 },
        ..empty().id_ex
    }
}
