//! Cases for the parts of a tick.

use super::Maker;
use super::instruction::{ARITHMETIC, SPECIAL};
use crate::case::Case;
use crate::refusals;
use crate::rows::{Decoded, IdEx, IfId, Raw};
use crate::special_registers;

impl Maker {
    /// Makes a state and a register to forward.
    pub fn forwarded(&mut self) -> Case {
        let mut state = self.state();
        let register = match self.random.below(20) {
            0 => self.limit(),
            _ => self.traced_register(),
        };
        let is_broken = refusals::state_breaks(&state) || refusals::register_breaks(register);
        if !is_broken && self.random.chance(50) {
            let other = self.traced_register();
            self.give_origins(&mut state, [register, other]);
        }
        Case::Forwarded(state, register)
    }

    /// Makes a state, a latch to execute, and the word that it asks for, most often.
    pub fn execute(&mut self) -> Case {
        let mut state = self.state();
        let mut latch = if refusals::state_breaks(&state) {
            self.free_id_ex()
        } else {
            self.id_ex(&state)
        };
        if self.random.chance(50) {
            latch.exception = 0;
        }
        match self.random.below(10) {
            0..4 => {
                let variant = self.random.pick(&ARITHMETIC);
                latch.decoded = Decoded::Normal(self.normal_of(variant));
                latch.n_srcs = 2;
            }
            4 => {
                let variant = self.random.pick(&SPECIAL);
                latch.decoded = Decoded::Normal(self.normal_of(variant));
            }
            5 => latch.decoded = Decoded::Normal(self.special_read()),
            _ => {}
        }
        if self.random.chance(30) {
            self.give_hard_operands(&mut state, &mut latch);
        }
        if !refusals::state_breaks(&state) && self.random.chance(30) {
            self.trace_operands(&mut state, &mut latch);
        }
        if self.random.chance(6) {
            self.latch_to_a_bound(&mut latch);
        }
        let asks = special_registers::wanted_by(state.user, &latch).is_some();
        let given = asks != self.random.chance(8);
        Case::Execute(state, latch, self.special(given))
    }

    /// Makes a state and a latch to decode.
    pub fn decode(&mut self) -> Case {
        Case::Decode(self.state(), self.lone_if_id())
    }

    /// Makes a fetched latch, now and then at a bound.
    pub fn lone_if_id(&mut self) -> IfId {
        let mut latch = self.if_id();
        if self.random.chance(8) {
            latch.raw = match self.decoded_at_a_bound() {
                Decoded::Normal(instruction) => Raw::Normal(instruction),
                Decoded::Short(_) => latch.raw,
            };
        }
        latch
    }

    /// Makes a decoded instruction, now and then at a bound.
    pub fn mul_div(&mut self) -> Case {
        let decoded = if self.random.chance(10) {
            self.decoded_at_a_bound()
        } else {
            self.decoded()
        };
        Case::MulDiv(decoded)
    }

    /// Makes a latch and two sources for the load-use test, most often with a load.
    pub fn hazard(&mut self) -> Case {
        let mut latch: IdEx = self.free_id_ex();
        latch.is_load |= self.random.chance(60);
        if self.random.chance(6) {
            self.latch_to_a_bound(&mut latch);
        }
        let mut sources = [self.register(), self.register()];
        if self.random.chance(6) {
            sources[self.random.below(2) as usize] = self.limit();
        }
        Case::Hazard(latch, sources[0], sources[1])
    }

    /// Makes a state to retire from, but none where RULES 13 departs from the original.
    pub fn retire(&mut self) -> Case {
        let mut state = self.state();
        if !state.running && refusals::holds_what_never_retires(&state.mem_wb) {
            state.mem_wb.exception = 0;
            state.mem_wb.mtsr = [0; 3];
            state.mem_wb.iret = false;
        }
        Case::Retire(state)
    }
}
