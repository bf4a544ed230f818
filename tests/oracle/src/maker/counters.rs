//! Counters in the middle, at a carry and near the top.

use super::Maker;
use crate::rows::State;

impl Maker {
    /// Sets the five counters.
    pub fn set_counters(&mut self, state: &mut State) {
        state.cycles = self.counter();
        state.running_cycles = self.counter();
        state.instructions_executed = self.counter();
        state.stall_cycles = self.counter();
        state.flush_events = self.counter();
        if self.random.chance(6) {
            self.fill_one(state);
        }
    }

    /// Makes a counter below its top.
    fn counter(&mut self) -> u64 {
        match self.random.below(8) {
            0 => u64::MAX - 1,
            1 => 0xffff_ffff,
            2 => self.random.bits() >> 1,
            _ => u64::from(self.random.below(1000)),
        }
    }

    /// Sets one counter to its top.
    pub fn fill_one(&mut self, state: &mut State) {
        *self.some_counter(state) = u64::MAX;
    }

    /// Sets one or two counters so that they reach their top within a run.
    pub fn bring_counters_near_the_top(&mut self, state: &mut State) {
        for _ in 0..1 + self.random.below(2) {
            let missing = u64::from(self.random.below(16));
            *self.some_counter(state) = u64::MAX - missing;
        }
    }

    /// Chooses one of the five counters.
    fn some_counter<'a>(&mut self, state: &'a mut State) -> &'a mut u64 {
        match self.random.below(5) {
            0 => &mut state.cycles,
            1 => &mut state.running_cycles,
            2 => &mut state.instructions_executed,
            3 => &mut state.stall_cycles,
            _ => &mut state.flush_events,
        }
    }
}
