//! What a tick of the original retires, by the profile that it keeps of addresses.

use super::original::Original;
use super::parts::words_of;
use crate::rows::State;

impl Original {
    /// Gives the addresses of the instructions that a tick retires.
    pub fn retired(&mut self, state: &State) -> Vec<u32> {
        self.load(state, &mut words_of(state));
        self.core.bus.prepare(0, 0);
        self.core.enable_pc_profile(true);
        self.core.tick();
        let counted = self.core.take_pc_profile();
        self.core.enable_pc_profile(false);
        counted.into_iter().map(|(_, pc, ..)| pc).collect()
    }
}
