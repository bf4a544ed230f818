//! The original, asked about states and latches given as plain numbers within bounds.

use super::unknown_words::UnknownWords;
use super::{CPU_FEATURES, PipelineCpu, SystemState, fresh_core, from_core, into_core};
use crate::cpu_privilege::{CPU_RESERVED_BASE, SR_REGION_BASE};
use crate::rows::{Begin, State};

/// A core whose fields are set before each question.
pub struct Original {
    pub(super) core: PipelineCpu,
    system: SystemState,
}

impl Original {
    /// Makes the core, with a region in which user mode may do everything.
    pub fn fresh() -> Self {
        let mut system = SystemState::default();
        let everything = [0, CPU_RESERVED_BASE, 7];
        for (field, value) in (0..).zip(everything) {
            system.write_sr(SR_REGION_BASE + field, value, &mut [0; 32]);
        }
        Self {
            core: fresh_core(),
            system,
        }
    }

    /// Makes a fresh state; the original sets only the fetch mode, RULES 12.1 the retire mode too.
    pub fn start(&mut self, begin: &Begin) -> State {
        let mut core = fresh_core();
        core.reset(begin.pc);
        for (register, &value) in begin.reg.iter().enumerate() {
            core.write_reg(register, value).expect("32 registers");
        }
        core.set_instruction_mode(into_core::mode(begin.mode));
        core.retire_mode = core.fetch_mode;
        core.sys.user = begin.user;
        from_core::state(&core, begin.features, &UnknownWords::default())
    }

    /// Sets the core's fields.
    pub(super) fn load(&mut self, state: &State, words: &mut UnknownWords) {
        into_core::state(&mut self.core, state, &self.system, words);
    }
}

/// Gives the feature word to put in place of the original's, unless it is the same.
pub(super) fn other_features(state: &State) -> Option<u32> {
    (state.features != CPU_FEATURES).then_some(state.features)
}
