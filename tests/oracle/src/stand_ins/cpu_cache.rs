//! A cache that waits as long as the harness says and tells the bus which access comes next.

use super::bus::{Announced, Bus};
use std::cell::{Cell, RefCell};
use std::rc::Rc;

/// The line to the bus, and the ticks that each fetch and each load costs.
pub struct L1Cache {
    pub miss_penalty: u32,
    pub fetch_wait: u32,
    pub load_wait: u32,
    announced: Rc<Cell<Announced>>,
}

impl L1Cache {
    /// Announces a load and gives the ticks that it costs.
    pub fn load(&mut self, _pa: u32) -> u32 {
        self.announced.set(Announced::Load);
        self.load_wait
    }

    /// Announces a store, which costs no tick.
    pub fn store(&mut self, _pa: u32) {
        self.announced.set(Announced::Store);
    }

    /// Announces a fetch and gives the ticks that it costs.
    pub fn fetch(&mut self, _pa: u32) -> u32 {
        self.announced.set(Announced::Fetch);
        self.fetch_wait
    }

    /// Holds nothing to reset.
    pub fn reset(&mut self) {}

    /// Shows counters that stay 0.
    pub fn read_reg(&self, _offset: u32) -> u32 {
        0
    }

    /// Counts no hits.
    pub fn add_hits(&mut self, _instruction: u32, _data: u32) {}
}

/// Makes the cache of a bus.
pub fn connect_cache(bus: &mut Bus) -> Rc<RefCell<L1Cache>> {
    let announced = Rc::clone(&bus.announced);
    Rc::new(RefCell::new(L1Cache {
        miss_penalty: 0,
        fetch_wait: 0,
        load_wait: 0,
        announced,
    }))
}
