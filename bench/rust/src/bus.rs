//! A bus as light as it can be: the program in arrays, loads answered from a list, stores into an array.
//!
//! What lies below `PROGRAM_BYTES` is the program; a load or store there is not meant to happen.

use crate::expansion::ExpansionCardDebugInfo;
use crate::interrupts::IrqController;
use crate::sheet::{Memory, PROGRAM_BYTES, RECORDS};
use std::cell::RefCell;
use std::rc::Rc;

const ANSWERS: usize = 8192;
const STORED_WORDS: usize = 4096;

/// Who asks the bus.
pub enum BusAccessSource {
    Cpu,
    Debugger,
}

/// A stretch of the address space.
pub struct BusRegion;

/// Program, answers and stored words; every index is masked, so that no access needs a test of its bounds.
pub struct Bus {
    words: [u32; RECORDS],
    halves: [u8; PROGRAM_BYTES],
    answers: [u32; ANSWERS],
    used: usize,
    stored: [u32; STORED_WORDS],
}

impl Bus {
    /// Makes a bus with a program, whose answers are 0.
    pub fn holding(memory: &Memory) -> Self {
        Bus {
            words: memory.words,
            halves: memory.halves,
            answers: [0; ANSWERS],
            used: 0,
            stored: [0; STORED_WORDS],
        }
    }

    /// Begins the list of answers anew.
    pub fn rewind(&mut self) {
        self.used = 0;
    }

    /// Tells whether every load so far had an answer of its own.
    pub fn had_answers(&self) -> bool {
        self.used <= ANSWERS
    }

    /// Fetches a word of the program, or gives a load the next answer.
    #[inline]
    pub fn read_u32_be(&mut self, addr: u32) -> u32 {
        let place = addr as usize;
        if place < PROGRAM_BYTES {
            return self.words[place / 4 % RECORDS];
        }
        let answer = self.answers[self.used % ANSWERS];
        self.used += 1;
        answer
    }

    /// Fetches a byte of a short instruction.
    #[inline]
    pub fn read_u8(&mut self, addr: u32) -> u8 {
        self.halves[addr as usize % PROGRAM_BYTES]
    }

    /// Stores a word.
    #[inline]
    pub fn write_u32_be(&mut self, addr: u32, value: u32) {
        self.stored[addr as usize / 4 % STORED_WORDS] = value;
    }

    /// Stores a byte as a word, which is as much work.
    #[inline]
    pub fn write_u8(&mut self, addr: u32, value: u8) {
        self.stored[addr as usize % STORED_WORDS] = u32::from(value);
    }
}

/// What the original asks of devices and of the host, none of which is here.
#[allow(dead_code)]
impl Bus {
    /// Moves no device.
    pub fn tick_devices(&mut self) {}

    /// Reports no bus error.
    pub fn take_bus_error(&mut self) -> bool {
        false
    }

    /// Takes no notice of interrupts.
    pub fn attach_irq_controller(&mut self, _controller: Rc<RefCell<IrqController>>) {}

    /// Holds nothing back.
    pub fn flush_relaxed_devices(&mut self) {}

    /// Takes no notice of who asks.
    pub fn set_access_source(&mut self, _source: BusAccessSource) {}

    /// Has no memory to show.
    pub fn read_debug_u8(&mut self, _addr: u32) -> Option<u8> {
        None
    }

    /// Has no regions.
    pub fn memory_map(&self) -> impl Iterator<Item = BusRegion> + '_ {
        std::iter::empty()
    }

    /// Makes no sound.
    pub fn mix_expansion_audio(&mut self, _rate: u32, _left: &mut [i16], _right: &mut [i16]) {}

    /// Has no cards.
    pub fn expansion_card_debug_info(&self) -> Vec<ExpansionCardDebugInfo> {
        Vec::new()
    }

    /// Has no cards to forget about.
    pub fn reset_expansion_card_debug_stats(&mut self) {}

    /// Has no cards to reset.
    pub fn reset_expansion_cards(&mut self) {}

    /// Has no fast paths.
    pub fn set_timing_insensitive_fast_paths(&mut self, _enabled: bool) {}

    /// Counts nothing.
    pub fn effectful_accesses(&self) -> u64 {
        0
    }

    /// Promises no quiet time.
    pub fn quiet_cycles(&self) -> u64 {
        0
    }

    /// Skips nothing.
    pub fn advance_quiet_cycles(&mut self, _cycles: u64) {}

    /// Moves no data by itself.
    pub fn has_pending_dma(&self) -> bool {
        false
    }

    /// Expects no event.
    pub fn cycles_until_next_event(&self) -> Option<u64> {
        None
    }

    /// Skips nothing.
    pub fn advance_system_cycles(&mut self, _cycles: u64) {}
}
