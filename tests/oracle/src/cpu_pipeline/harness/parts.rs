//! The parts of a tick, each called by itself.

use super::original::{Original, other_features};
use super::unknown_words::UnknownWords;
use super::{PipelineCpu, feature_word, from_core, into_core, special_register};
use crate::rows::{self, Offer, Redirect, Special, State};

impl Original {
    /// Gives what is forwarded for a register.
    pub fn forwarded(&mut self, state: &State, register: u32) -> u32 {
        self.load(state, &mut words_of(state));
        let register = register as usize;
        match other_features(state) {
            Some(features) => feature_word::forwarded(&mut self.core, register, features),
            None => self.core.forwarded(register, 0),
        }
    }

    /// Executes a latch, an MFSR with the word of its register or none.
    pub fn execute(
        &mut self,
        state: &State,
        latch: &rows::IdEx,
        special: Special,
    ) -> (rows::ExMem, Redirect) {
        self.load(state, &mut words_of(state));
        let held = into_core::id_ex(latch);
        self.core.id_ex = held;
        if let Some(features) = other_features(state) {
            feature_word::put_in_place(&mut self.core, features);
        }
        special_register::put_in_place(&mut self.core, special);
        let altered = self.core.id_ex;
        let (mut ex_mem, redirect) = self.core.execute_ex(&altered);
        special_register::give_back(&mut ex_mem.decoded, altered.decoded, held.decoded);
        let redirect = redirect.map_or(Redirect::default(), |(target, mode)| Redirect {
            redirect: true,
            target,
            target_mode: from_core::mode(mode),
        });
        (
            from_core::ex_mem(&ex_mem, &UnknownWords::default()),
            redirect,
        )
    }

    /// Decodes a fetched instruction.
    pub fn decode(&mut self, state: &State, latch: &rows::IfId) -> rows::IdEx {
        self.load(state, &mut words_of(state));
        let mut words = UnknownWords::default();
        let fetched = into_core::if_id(latch, &mut words);
        from_core::id_ex(&self.core.decode_id(&fetched), &words)
    }

    /// Gives the sources that a fetched instruction waits for.
    pub fn sources(&mut self, latch: &rows::IfId) -> [u32; 2] {
        let fetched = into_core::if_id(latch, &mut UnknownWords::default());
        let sources = self.core.id_sources(&fetched);
        sources.map(|register| register as u32)
    }

    /// Gives the latency of a multiply or divide, or 0.
    pub fn latency(&mut self, decoded: &rows::Decoded) -> u32 {
        PipelineCpu::is_mul_div(&into_core::decoded(decoded)).unwrap_or(0)
    }

    /// Tells whether a load keeps an instruction with these sources waiting.
    pub fn hazard(&mut self, latch: &rows::IdEx, sources: [u32; 2]) -> bool {
        let sources = sources.map(|register| register as usize);
        PipelineCpu::load_use_hazard(&into_core::id_ex(latch), &sources)
    }

    /// Retires MEM/WB, which stays in its latch.
    pub fn retire(&mut self, state: &State) -> State {
        let mut words = words_of(state);
        self.load(state, &mut words);
        let held = self.core.mem_wb;
        if let Some(features) = other_features(state) {
            feature_word::settle_mem_wb(&mut self.core, features);
        }
        let flushed = self.core.commit_mem_wb(self.core.mem_wb);
        assert!(!flushed, "what never retires is refused");
        self.core.mem_wb = held;
        from_core::state(&self.core, state.features, &words)
    }
}

/// Notes the Unknown words of a state to which nothing is offered.
pub fn words_of(state: &State) -> UnknownWords {
    UnknownWords::of(state, &Offer::Nothing)
}
