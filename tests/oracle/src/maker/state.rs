//! Whole states: put together freely or reached by ticks, then bent toward the rare places.

use super::Maker;
use crate::rows::State;

impl Maker {
    /// Makes a state, most often within bounds.
    pub fn state(&mut self) -> State {
        let mut state = if self.random.chance(12) {
            self.reached()
        } else {
            self.arbitrary()
        };
        if self.random.chance(55) {
            self.let_meet(&mut state);
        }
        if self.random.chance(20) {
            let mut latch = state.id_ex;
            self.trace_operands(&mut state, &mut latch);
            state.id_ex = latch;
        }
        if self.random.chance(9) {
            self.wait_for_the_memory(&mut state);
        }
        if self.random.chance(15) {
            self.go_to_a_bound(&mut state);
        }
        state
    }

    /// Makes a state with every field chosen by itself.
    fn arbitrary(&mut self) -> State {
        let begin = self.begin();
        let mut state = self.original.start(&begin);
        state.reg[0] = self.word();
        state.retire_pc = self.address();
        state.retire_mode = self.mode();
        state.if_id = self.if_id();
        state.id_ex = self.id_ex(&state);
        state.ex_mem = self.ex_mem(&state);
        state.mem_wb = self.mem_wb(&state);
        self.set_wait(&mut state);
        self.set_counters(&mut state);
        state.running = self.random.chance(94);
        state
    }

    /// Sets the wait, seldom one that still goes on, since that hides the other stages.
    fn set_wait(&mut self, state: &mut State) {
        (state.ex_armed, state.ex_cycles_left) = match self.random.below(20) {
            0..12 => (false, 0),
            12 | 13 => (false, self.random.below(16)),
            14..18 => (true, self.random.below(2)),
            18 => (true, self.random.pick(&[2, 3, 14, 15])),
            _ => (true, self.random.below(16)),
        };
    }

    /// Makes a state that a random program leads to.
    fn reached(&mut self) -> State {
        let program = self.program();
        let begin = self.list_begin();
        let mut state = self.original.start(&begin);
        for _ in 0..self.random.below(24) {
            let given = self.fitting(&program, &state);
            state = self.answers.ticked(&state, &given).1;
        }
        state
    }
}
