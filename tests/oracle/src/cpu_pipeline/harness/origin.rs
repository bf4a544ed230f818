//! The origin of a value in the original: what has to change so that the value changes.

use super::original::Original;
use super::parts::words_of;
use super::{Decoded, IdEx, Instruction, MemWb, PipelineCpu, into_core};
use crate::rows::{self, Origin, State};

/// A change to what a register's value may come from, given another word.
type Change = fn(&mut PipelineCpu, usize, u32);

/// What is changed, one after the other, each from the same state.
const CHANGES: [Change; 5] = [
    |core, _, other| core.ex_mem.alu_result = other,
    |core, _, other| core.mem_wb.value = other,
    |core, register, other| core.reg[register] = other,
    leave_no_cpuid,
    write_from_mem_wb,
];

/// Takes CPUID from both latches, with the other word wherever the value may come from instead.
fn leave_no_cpuid(core: &mut PipelineCpu, register: usize, other: u32) {
    (core.ex_mem.cpuid, core.mem_wb.cpuid) = (false, false);
    (core.ex_mem.alu_result, core.mem_wb.value) = (other, other);
    core.reg[register] = other;
}

/// Lets MEM/WB write the other word, which it gives before its CPUID and behind EX/MEM's.
fn write_from_mem_wb(core: &mut PipelineCpu, register: usize, other: u32) {
    core.mem_wb = MemWb {
        valid: true,
        writeback: true,
        dest: Some(register),
        value: other,
        ..core.mem_wb
    };
}

impl Original {
    /// Finds the origin of what is forwarded for a register.
    pub fn origin_of(&mut self, state: &State, register: u32) -> Origin {
        let register = register as usize;
        self.origin(state, register, |core| core.forwarded(register, 0))
    }

    /// Finds the origin of a latch's operand A, which an ADDI of 0 in it would have as its result.
    pub fn origin_of_a(&mut self, state: &State, latch: &rows::IdEx) -> Origin {
        let (rd, rs1, imm) = (0, 0, 0);
        let adding = holding(latch, Instruction::Addi { rd, rs1, imm });
        self.origin(state, adding.srcs[0], |core| {
            core.execute_ex(&adding).0.alu_result
        })
    }

    /// Finds the origin of a latch's operand B, which an ST in it would store.
    pub fn origin_of_b(&mut self, state: &State, latch: &rows::IdEx) -> Origin {
        let (rd, base, offset) = (0, 0, 0);
        let storing = holding(latch, Instruction::St { rd, base, offset });
        self.origin(state, storing.srcs[1], |core| {
            core.execute_ex(&storing).0.store_value
        })
    }

    /// Finds the origin of a value that is made of a register.
    fn origin(
        &mut self,
        state: &State,
        register: usize,
        value: impl Fn(&PipelineCpu) -> u32,
    ) -> Origin {
        self.load(state, &mut words_of(state));
        let core = &mut self.core;
        let right = value(core);
        let changed = CHANGES.map(|change| {
            let held = (core.ex_mem, core.mem_wb, core.reg);
            change(core, register, !right);
            let changed = value(core) != right;
            (core.ex_mem, core.mem_wb, core.reg) = held;
            changed
        });
        match changed {
            [true, false, false, ..] => Origin::ExMem,
            [false, true, false, ..] => Origin::MemWb,
            [false, false, true, ..] => Origin::RegisterFile,
            [false, false, false, false, false] => Origin::ZeroRegister,
            [false, false, false, true, false] => Origin::ExMemCpuid,
            [false, false, false, true, true] => Origin::MemWbCpuid,
            _ => panic!("R{register}'s value comes from several places: {changed:?}"),
        }
    }
}

/// Makes a latch with the same sources that holds another instruction and no exception.
fn holding(latch: &rows::IdEx, instruction: Instruction) -> IdEx {
    IdEx {
        decoded: Decoded::Normal(instruction),
        exception: None,
        ..into_core::id_ex(latch)
    }
}
