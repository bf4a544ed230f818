//! Special registers: their numbers, the answers for them, and states in which an MFSR asks or is kept from asking.

use super::Maker;
use crate::cpu_pipeline::harness::Numbers;
use crate::rows::{Raw, Special, State};
use crate::special_registers::MFSR;

impl Maker {
    /// Makes the number of a special register: a low one, one that the original has, one at a limit, or any.
    pub fn special_number(&mut self) -> u32 {
        match self.random.below(16) {
            0..7 => self.random.below(8),
            7 => self.random.pick(&[8, 9, 0x10, 0x40, 0x44]),
            8..11 => self.random.pick(&[0x3f, 0x40, 0xff, 0x100, 0x101, 0x8000]),
            11 | 12 => self.random.pick(&[0xfffe, 0xffff, 0xffff]),
            13 => self.random.below(0x1_0000),
            _ => self.random.below(64),
        }
    }

    /// Makes an answer for a special register, a word most often, or none.
    pub fn special(&mut self, given: bool) -> Special {
        match self.random.below(5) {
            _ if !given => Special::NotGiven,
            0 => Special::NoSuchRegister,
            _ => Special::Word(self.word()),
        }
    }

    /// Makes an MFSR.
    pub fn special_read(&mut self) -> Numbers {
        self.normal_of(MFSR)
    }

    /// Puts an MFSR into ID/EX together with something that may keep it from asking.
    pub fn read_a_special_register(&mut self, state: &mut State) {
        self.execute_a_special_read(state);
        state.user = self.random.chance(15);
        match self.random.below(12) {
            0 => state.id_ex.exception = self.exception(100),
            1 | 2 => self.name_in_if_id(state),
            3 => self.go_on_waiting(state),
            4 => (state.ex_armed, state.ex_cycles_left) = (false, 2 + self.random.below(14)),
            5 => {
                self.halt(state);
                state.mem_wb.valid = self.random.chance(70);
            }
            6 => (state.ex_mem.valid, state.ex_mem.halt) = (true, true),
            7 => self.wait_before_a_special_read(state),
            8 => state.running = false,
            9 => state.id_ex.predicted_taken = true,
            _ => self.read_behind_a_special_read(state),
        }
    }

    /// Puts an MFSR into ID/EX, now and then with fields that its own decoding does not give.
    fn execute_a_special_read(&mut self, state: &mut State) {
        let read = self.special_read();
        self.execute_normal(state, read);
        let latch = &mut state.id_ex;
        latch.valid = self.random.chance(90);
        latch.is_load = self.random.chance(12);
        latch.is_store = self.random.chance(12);
        latch.mode ^= u32::from(self.random.chance(10));
        if self.random.chance(10) {
            latch.dest = 0;
        }
    }

    /// Lets a multiply or divide begin its wait before an MFSR.
    fn wait_before_a_special_read(&mut self, state: &mut State) {
        self.begin_a_wait(state);
        state.if_id.valid = true;
        state.if_id.raw = Raw::Normal(self.special_read());
    }

    /// Lets an MFSR in EX/MEM forward its word to ID/EX, most often.
    fn read_behind_a_special_read(&mut self, state: &mut State) {
        let register = self.register();
        let special = self.special(true);
        state.id_ex.dest = register + 1;
        state.ex_mem = self.original.execute(state, &state.id_ex, special).0;
        let other = self.register();
        self.execute_a_reader(state, [register, other]);
    }
}
