//! Ticks with a lent log: states in which much is logged or kept from it, and logs around what the events need.

use super::Maker;
use crate::card_log;
use crate::case::Case;
use crate::refusals;
use crate::rows::{ExMem, LOG_BYTES, LentLog, MemWb, State, words_of};

/// Registers at which the log goes wrong first.
const WRITTEN: [u32; 10] = [0, 0, 1, 1, 2, 2, 3, 30, 31, 31];
/// Widths of a load or store.
const WIDTHS: [u32; 6] = [0, 1, 1, 2, 2, 4];

impl Maker {
    /// Makes a state with what its tick is given and a log.
    pub fn logged(&mut self) -> Case {
        let mut state = self.state();
        if !refusals::state_breaks(&state) && self.random.chance(75) {
            self.let_log(&mut state);
        }
        let seen = self.seen(&state);
        let given = self.input(&seen);
        let events = card_log::of_tick(&state, &given.answer);
        let log = self.lent_log(card_log::bytes(&events).len() as u64);
        Case::Logged(state, given, log)
    }

    /// Lets a tick have events: both older latches do something, or one thing keeps them from it.
    fn let_log(&mut self, state: &mut State) {
        state.running = self.random.chance(94);
        self.let_retire(&mut state.mem_wb);
        self.let_ask(&mut state.ex_mem);
        match self.random.below(12) {
            0 | 1 => self.go_on_waiting(state),
            2 => self.begin_a_wait(state),
            3 => {
                state.mem_wb.halt = true;
                (state.ex_mem.is_load, state.ex_mem.is_store) = (false, true);
            }
            4 => state.mem_wb.halt = true,
            _ => {}
        }
    }

    /// Lets MEM/WB write registers, with CPUID or not, most often.
    fn let_retire(&mut self, latch: &mut MemWb) {
        latch.valid = self.random.chance(85);
        latch.writeback = self.random.chance(80);
        latch.cpuid = self.random.chance(40);
        latch.dest = match self.random.below(5) {
            0 => 0,
            1 => self.register() + 1,
            _ => self.random.pick(&WRITTEN) + 1,
        };
        latch.value = self.word();
        if self.random.chance(95) {
            (latch.exception, latch.mtsr, latch.iret) = (0, [0; 3], false);
        }
        latch.halt = self.random.chance(6);
    }

    /// Lets EX/MEM load or store, most often.
    fn let_ask(&mut self, latch: &mut ExMem) {
        latch.valid = self.random.chance(85);
        (latch.is_load, latch.is_store) = match self.random.below(10) {
            0..3 => (true, false),
            3..8 => (false, true),
            8 => (true, true),
            _ => (false, false),
        };
        latch.mem_size = self.random.pick(&WIDTHS);
        latch.mem_addr = self.address();
        latch.store_value = self.word();
    }

    /// Makes a log around what some events need.
    fn lent_log(&mut self, need: u64) -> LentLog {
        let most = LOG_BYTES as u64;
        let (free, length) = match self.random.below(20) {
            0..9 => self.around_the_need(need, most),
            9..14 => (u64::from(self.random.below(most as u32 + 1)), most),
            14 => (u64::from(self.random.below(3)), 0),
            15 | 16 => self.around_the_end(most),
            17 => (u64::MAX - u64::from(self.random.below(2)), most),
            18 => (1 << 32 | u64::from(self.random.below(8)), most),
            _ => (0, most),
        };
        let words = words_of(&std::array::from_fn(|_| self.byte()));
        let length = length as u32;
        LentLog {
            free,
            length,
            words,
        }
    }

    /// Chooses a first free place with about as much room behind it as the events need.
    fn around_the_need(&mut self, need: u64, most: u64) -> (u64, u64) {
        let free = u64::from(self.random.below((most - need + 1) as u32));
        let length = free + need + u64::from(self.random.below(5));
        (free, length.saturating_sub(2).min(most))
    }

    /// Chooses a first free place at the end of a log, before it or past it.
    fn around_the_end(&mut self, most: u64) -> (u64, u64) {
        let length = u64::from(self.random.below(most as u32 + 1));
        let free = length + u64::from(self.random.below(4));
        (free.saturating_sub(1), length)
    }
}
