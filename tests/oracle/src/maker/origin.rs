//! Older latches that give a register its value, or miss that by one field.

use super::Maker;
use crate::rows::{IdEx, State};

/// Registers at which origins differ: the zero register, those of CPUID, the ones behind them and the last.
const TRACED: [u32; 5] = [0, 1, 2, 3, 31];

impl Maker {
    /// Makes a register whose origin is looked for.
    pub fn traced_register(&mut self) -> u32 {
        if self.random.chance(40) {
            self.random.pick(&TRACED)
        } else {
            self.register()
        }
    }

    /// Lets a latch read what the older latches give, or nearly so; half of the time other registers than its own.
    pub fn trace_operands(&mut self, state: &mut State, latch: &mut IdEx) {
        if self.random.chance(50) {
            (latch.src0, latch.src1) = (self.traced_register(), self.traced_register());
        }
        self.give_origins(state, [latch.src0, latch.src1]);
    }

    /// Lets both older latches give registers their values, one of them or neither, or nearly so.
    pub fn give_origins(&mut self, state: &mut State, registers: [u32; 2]) {
        if self.random.chance(75) {
            let register = self.random.pick(&registers);
            self.nearly_forward_from_ex_mem(state, register);
        }
        if self.random.chance(75) {
            let register = self.random.pick(&registers);
            self.nearly_forward_from_mem_wb(state, register);
        }
    }

    /// Lets EX/MEM forward to a register, most often; else one field keeps it from that.
    fn nearly_forward_from_ex_mem(&mut self, state: &mut State, register: u32) {
        let latch = &mut state.ex_mem;
        (latch.valid, latch.writeback, latch.is_load) = (true, true, false);
        latch.dest = register + 1;
        latch.cpuid = self.random.chance(30);
        match self.random.below(10) {
            0 => latch.valid = false,
            1 => latch.writeback = false,
            2 => latch.is_load = true,
            3 => latch.dest = self.random.pick(&[0, 4, register]),
            _ => {}
        }
    }

    /// Lets MEM/WB forward to a register, most often; else one field keeps it from that.
    fn nearly_forward_from_mem_wb(&mut self, state: &mut State, register: u32) {
        let latch = &mut state.mem_wb;
        (latch.valid, latch.writeback) = (true, true);
        latch.dest = register + 1;
        latch.cpuid = self.random.chance(30);
        match self.random.below(8) {
            0 => latch.valid = false,
            1 => latch.writeback = false,
            2 => latch.dest = self.random.pick(&[0, 4, register]),
            _ => {}
        }
    }
}
