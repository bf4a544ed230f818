//! The bounds of refusals 11 and 12: each at its limit and past it.

use super::Maker;
use crate::cpu_pipeline::harness::Numbers;
use crate::refusals::{MOST_LEFT, register_count};
use crate::rows::{Decoded, IdEx, Raw, State};
use crate::special_registers::MFSR;

/// Kinds of Normal instructions with one, two and three registers.
const WITH_REGISTERS: [u32; 12] = [
    0x01, 0x02, 0x03, 0x04, 0x07, 0x0b, 0x10, 0x1b, 0x1f, 0x23, 0x24, 0x2a,
];

/// Ticks left of a wait for the memory around their limit.
const LEFT: [u32; 8] = [
    MOST_LEFT - 1,
    MOST_LEFT,
    MOST_LEFT,
    MOST_LEFT,
    MOST_LEFT + 1,
    MOST_LEFT + 1,
    MOST_LEFT + 1,
    0xffff_ffff,
];

impl Maker {
    /// Sets one bounded field of the state to its limit or past it.
    pub fn go_to_a_bound(&mut self, state: &mut State) {
        match self.random.below(18) {
            0 => state.if_id.raw = Raw::Normal(self.normal_at_some_bound()),
            1 => state.if_id.raw = Raw::Normal(self.normal_at_a_bound(MFSR)),
            2..6 => self.latch_to_a_bound(&mut state.id_ex),
            6 => state.ex_mem.decoded = self.decoded_at_a_bound(),
            7 => state.ex_mem.dest = self.limit() + 1,
            8 | 9 => state.ex_mem.mem_size = self.random.pick(&[2, 3, 4, 5, 6, 7, 8, 16, 255]),
            10 => state.mem_wb.dest = self.limit() + 1,
            11 | 12 => {
                state.ex_cycles_left = self.random.pick(&[14, 15, 15, 16, 16, 17, 0xffff_ffff])
            }
            13 => self.fill_one_of_a_stopped_machine(state),
            14 => {
                self.hold_what_never_retires(state);
                state.ex_mem.dest = self.limit() + 1;
            }
            15 | 16 => {
                state.wait_left = self.random.pick(&LEFT);
                state.running = self.random.chance(70);
            }
            _ => self.hold_what_never_retires(state),
        }
    }

    /// Stops the machine with one counter at its top.
    pub fn fill_one_of_a_stopped_machine(&mut self, state: &mut State) {
        state.running = false;
        self.fill_one(state);
    }

    /// Sets one bounded field of a decoded latch to its limit or past it.
    pub fn latch_to_a_bound(&mut self, latch: &mut IdEx) {
        match self.random.below(6) {
            0 => latch.src0 = self.limit(),
            1 => latch.src1 = self.limit(),
            2 => latch.dest = self.limit() + 1,
            3 | 4 => latch.n_srcs = self.random.pick(&[2, 2, 3, 3, 4, 255]),
            _ => latch.decoded = self.decoded_at_a_bound(),
        }
    }

    /// Makes a decoded instruction at a bound, an MFSR more often than others.
    pub fn decoded_at_a_bound(&mut self) -> Decoded {
        Decoded::Normal(match self.random.below(3) {
            0 => self.normal_at_a_bound(MFSR),
            _ => self.normal_at_some_bound(),
        })
    }

    /// Makes a Normal instruction with one register at its limit or past it.
    pub fn normal_at_some_bound(&mut self) -> Numbers {
        let variant = self.random.pick(&WITH_REGISTERS);
        self.normal_at_a_bound(variant)
    }

    /// Makes a Normal instruction of one kind with one register at its limit or past it.
    pub fn normal_at_a_bound(&mut self, variant: u32) -> Numbers {
        let mut instruction = self.normal_of(variant);
        let count = register_count(variant);
        if count > 0 {
            let place = self.random.below(count as u32) as usize;
            instruction.fields[place] = self.limit();
        }
        instruction
    }

    /// Gives a register number at its limit or past it.
    pub fn limit(&mut self) -> u32 {
        self.random.pick(&[31, 31, 32, 32, 33, 63, 64, 128, 255])
    }

    /// Puts what never retires into MEM/WB, valid or not, of a running machine or not.
    pub fn hold_what_never_retires(&mut self, state: &mut State) {
        match self.random.below(3) {
            0 => state.mem_wb.exception = self.exception(100),
            1 => state.mem_wb.mtsr = self.special_write(100),
            _ => state.mem_wb.iret = true,
        }
        state.mem_wb.valid = self.random.chance(60);
        state.running = self.random.chance(60);
        if self.random.chance(25) {
            self.fill_one(state);
        }
    }
}
