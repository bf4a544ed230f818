//! What ticks in a row have written into the held log.

use super::Event;
use crate::rows::State;

/// Where the log began, the events since then, and the registers before them.
pub struct Written {
    pub start: u64,
    pub events: Vec<Event>,
    /// Nothing where the state changed otherwise meanwhile.
    pub registers: Option<[u32; 32]>,
}

impl Written {
    /// Begins at a place and a state.
    pub fn new(start: u64, state: &State) -> Self {
        Self {
            start,
            events: Vec::new(),
            registers: Some(state.reg),
        }
    }
}

/// Lays the registers that events write over others.
pub fn laid_over(mut registers: [u32; 32], events: &[Event]) -> [u32; 32] {
    for event in events {
        if let Event::Written(register, word) = *event {
            registers[register as usize] = word;
        }
    }
    registers
}
