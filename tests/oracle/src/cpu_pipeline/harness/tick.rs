//! One tick of the original, with stand-ins where RULES departs from it.

use super::original::{Original, other_features};
use super::unknown_words::UnknownWords;
use super::{PipelineCpu, feature_word, from_core, register_block, special_register};
use crate::bus::Request;
use crate::origins;
use crate::rows::{Input, LOAD, NORMAL, Offer, SHORT, STORE, Seen, Special, State, Waits};
use crate::special_registers;

impl Original {
    /// Does one tick and tells what it asked for, whether or not what it is given fits that.
    pub fn tick(&mut self, state: &State, given: &Input) -> (State, Seen) {
        let Input {
            offer,
            answer,
            special,
            waits,
        } = *given;
        let mut words = UnknownWords::of(state, &offer);
        let fetch = match offer {
            Offer::Nothing => 0,
            Offer::Normal(instruction) => words.word_of(instruction),
            Offer::Short(halfword) => halfword,
        };
        self.load(state, &mut words);
        self.prepare(fetch, answer.word, waits);
        self.tick_loaded(state, special);
        if was_denied(&self.core, state) {
            self.load(state, &mut words);
            self.prepare(fetch, answer.word, waits);
            self.tick_without_protection(state, special);
        }
        let next = from_core::state(&self.core, state.features, &words);
        let seen = special_registers::name(seen(&self.core), state);
        let origins = origins::shown(self, state);
        (next, Seen { origins, ..seen })
    }

    /// Sets what the memory gives a fetch and a load, and how long it takes.
    fn prepare(&mut self, fetch: u32, load: u32, waits: Waits) {
        self.core.bus.prepare(fetch, load);
        let mut cache = self.core.cache.borrow_mut();
        (cache.fetch_wait, cache.load_wait) = (waits.fetch, waits.load);
    }

    /// Tells what a tick asks for.
    pub fn asked(&mut self, state: &State) -> Seen {
        self.tick(state, &Input::NOTHING).1
    }

    /// Does the tick in supervisor mode, with the exception that user mode raises put in beforehand.
    fn tick_without_protection(&mut self, state: &State, special: Special) {
        let held = self.core.id_ex;
        let in_user_mode = self.core.execute_ex(&held).0.exception;
        self.core.sys.user = false;
        if self.core.execute_ex(&held).0.exception != in_user_mode {
            self.core.id_ex.exception = in_user_mode;
        }
        let altered = self.core.id_ex;
        self.tick_loaded(state, special);
        if self.core.id_ex == altered {
            self.core.id_ex = held;
        }
        self.core.sys.user = true;
    }

    /// Does the tick with the feature word, the register block, a load's whole answer and a special register's word
    /// stood in for.
    fn tick_loaded(&mut self, state: &State, special: Special) {
        let core = &mut self.core;
        let held = core.id_ex;
        let moves = state.running && state.wait_left == 0;
        let features = other_features(state).filter(|_| moves);
        let lent = features.and_then(|features| feature_word::put_in_place(core, features));
        if moves {
            special_register::put_in_place(core, special);
        }
        let altered = core.id_ex;
        let block = register_block::publish(core);
        core.tick();
        register_block::put_back(core, block);
        if core.bus.loaded.is_some() {
            core.mem_wb.value = core.bus.load_answer;
        }
        feature_word::give_back(core, lent);
        // What stays in ID/EX names its own sources and its own special register again.
        if core.id_ex == altered {
            core.id_ex = held;
        }
        special_register::give_back(&mut core.ex_mem.decoded, altered.decoded, held.decoded);
    }
}

/// Tells whether user mode was denied an access, which RULES knows nothing of.
fn was_denied(core: &PipelineCpu, state: &State) -> bool {
    state.user && (!core.sys.user || core.if_id.fetch_fault.is_some())
}

/// Reads off the bus what the tick asked for.
fn seen(core: &PipelineCpu) -> Seen {
    let mut seen = Seen::default();
    if let Some(Request { address, width, .. }) = core.bus.fetched {
        seen.fetch = true;
        seen.pc = address;
        seen.mode = if width == 4 { NORMAL } else { SHORT };
    }
    let request = core.bus.loaded.map(|request| (LOAD, request));
    if let Some((kind, request)) = request.or(core.bus.stored.map(|request| (STORE, request))) {
        seen.request = kind;
        seen.address = request.address;
        seen.width = request.width;
        seen.word = request.word;
    }
    seen
}
