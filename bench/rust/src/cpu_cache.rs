//! A cache that never waits and does nothing else.

use crate::bus::Bus;
use std::cell::RefCell;
use std::rc::Rc;

/// The cache's penalty, which the original can set, and no lines.
pub struct L1Cache {
    pub miss_penalty: u32,
}

impl L1Cache {
    /// Costs no tick.
    pub fn load(&mut self, _pa: u32) -> u32 {
        0
    }

    /// Keeps nothing.
    pub fn store(&mut self, _pa: u32) {}

    /// Costs no tick.
    pub fn fetch(&mut self, _pa: u32) -> u32 {
        0
    }

    /// Holds nothing to reset.
    pub fn reset(&mut self) {}

    /// Shows counters that stay 0.
    pub fn read_reg(&self, _offset: u32) -> u32 {
        0
    }

    /// Counts no hits.
    pub fn add_hits(&mut self, _instruction: u32, _data: u32) {}
}

/// Makes the cache of a bus.
pub fn connect_cache(_bus: &mut Bus) -> Rc<RefCell<L1Cache>> {
    Rc::new(RefCell::new(L1Cache { miss_penalty: 0 }))
}
