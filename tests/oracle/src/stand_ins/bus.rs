//! A bus without memory: the harness decides what a fetch or a load is given.

use super::devices::expansion::ExpansionCardDebugInfo;
use super::devices::irqc::irqc::IrqController;
use std::cell::{Cell, RefCell};
use std::rc::Rc;

/// Who asks the bus.
#[derive(Debug, Clone, Copy, PartialEq, Eq)]
pub enum BusAccessSource {
    Cpu,
    Debugger,
}

/// A stretch of the address space.
#[derive(Debug, Clone, Copy, PartialEq, Eq)]
pub struct BusRegion {
    pub start: u32,
    pub end: u32,
}

/// The access that the cache stand-in has announced.
#[derive(Debug, Clone, Copy, Default, PartialEq, Eq)]
pub enum Announced {
    #[default]
    Other,
    Fetch,
    Load,
    Store,
}

/// One access as the bus saw it; a load's or fetch's word stays 0.
#[derive(Debug, Clone, Copy, Default, PartialEq, Eq)]
pub struct Request {
    pub address: u32,
    pub width: u32,
    pub word: u32,
}

/// The answers to give and the accesses seen since they were set.
#[derive(Default)]
pub struct Bus {
    pub(super) announced: Rc<Cell<Announced>>,
    pub fetch_answer: u32,
    pub load_answer: u32,
    pub fetched: Option<Request>,
    pub loaded: Option<Request>,
    pub stored: Option<Request>,
}

impl Bus {
    /// Sets the answers and forgets the accesses seen.
    pub fn prepare(&mut self, fetch_answer: u32, load_answer: u32) {
        self.announced.set(Announced::Other);
        self.fetch_answer = fetch_answer;
        self.load_answer = load_answer;
        self.fetched = None;
        self.loaded = None;
        self.stored = None;
    }

    /// Reads a word.
    pub fn read_u32_be(&mut self, addr: u32) -> u32 {
        match self.announced.get() {
            Announced::Fetch => {
                widen(&mut self.fetched, addr, 4);
                self.fetch_answer
            }
            Announced::Load => {
                widen(&mut self.loaded, addr, 4);
                self.load_answer
            }
            Announced::Store | Announced::Other => 0,
        }
    }

    /// Reads a byte; a fetch gets its halfword's two bytes, a narrow load zeros.
    pub fn read_u8(&mut self, addr: u32) -> u8 {
        match self.announced.get() {
            Announced::Fetch => {
                let request = widen(&mut self.fetched, addr, 1);
                (self.fetch_answer >> (if request.width == 1 { 8 } else { 0 })) as u8
            }
            Announced::Load => {
                widen(&mut self.loaded, addr, 1);
                0
            }
            Announced::Store | Announced::Other => 0,
        }
    }

    /// Notes a stored word.
    pub fn write_u32_be(&mut self, addr: u32, value: u32) {
        widen(&mut self.stored, addr, 4).word = value;
    }

    /// Notes a stored byte behind those before it.
    pub fn write_u8(&mut self, addr: u32, value: u8) {
        let request = widen(&mut self.stored, addr, 1);
        request.word = (request.word << 8) | u32::from(value);
    }
}

/// Adds bytes to the access seen, which starts at the first address.
fn widen(seen: &mut Option<Request>, address: u32, width: u32) -> &mut Request {
    let request = seen.get_or_insert(Request {
        address,
        width: 0,
        word: 0,
    });
    request.width += width;
    request
}

/// What the original asks of devices and of the host, none of which is here.
impl Bus {
    /// Moves no device.
    pub fn tick_devices(&mut self) {}

    /// Reports no bus error.
    pub fn take_bus_error(&mut self) -> bool {
        false
    }

    /// Takes no notice of interrupts.
    pub fn attach_irq_controller(&mut self, _controller: Rc<RefCell<IrqController>>) {}

    /// Holds nothing back.
    pub fn flush_relaxed_devices(&mut self) {}

    /// Takes no notice of who asks.
    pub fn set_access_source(&mut self, _source: BusAccessSource) {}

    /// Has no memory to show.
    pub fn read_debug_u8(&mut self, _addr: u32) -> Option<u8> {
        None
    }

    /// Has no regions.
    pub fn memory_map(&self) -> impl Iterator<Item = BusRegion> + '_ {
        std::iter::empty()
    }

    /// Makes no sound.
    pub fn mix_expansion_audio(&mut self, _rate: u32, _left: &mut [i16], _right: &mut [i16]) {}

    /// Has no cards.
    pub fn expansion_card_debug_info(&self) -> Vec<ExpansionCardDebugInfo> {
        Vec::new()
    }

    /// Has no cards to forget about.
    pub fn reset_expansion_card_debug_stats(&mut self) {}

    /// Has no cards to reset.
    pub fn reset_expansion_cards(&mut self) {}

    /// Has no fast paths.
    pub fn set_timing_insensitive_fast_paths(&mut self, _enabled: bool) {}

    /// Counts nothing.
    pub fn effectful_accesses(&self) -> u64 {
        0
    }

    /// Promises no quiet time.
    pub fn quiet_cycles(&self) -> u64 {
        0
    }

    /// Skips nothing.
    pub fn advance_quiet_cycles(&mut self, _cycles: u64) {}

    /// Moves no data by itself.
    pub fn has_pending_dma(&self) -> bool {
        false
    }

    /// Expects no event.
    pub fn cycles_until_next_event(&self) -> Option<u64> {
        None
    }

    /// Skips nothing.
    pub fn advance_system_cycles(&mut self, _cycles: u64) {}
}
