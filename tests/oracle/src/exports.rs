//! Functions that the host bench in C links.

use crate::cpu_pipeline::harness::arithmetic::{self, Arithmetic};
use std::cell::RefCell;

thread_local! {
    /// The core that answers the bench.
    static CORE: RefCell<Arithmetic> = RefCell::new(Arithmetic::fresh());
}

/// Answers one command on two words as the original does, or with the refusal.
#[unsafe(no_mangle)]
pub extern "C" fn oracle_alu(command: u32, a: u32, b: u32) -> u64 {
    CORE.with_borrow_mut(|core| arithmetic::answer(core, command, a, b))
}
