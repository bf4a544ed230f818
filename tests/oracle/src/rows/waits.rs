//! The ticks that the memory makes the pipeline wait, told by the caller.

use crate::row::{Row, join};

/// The ticks to wait for the fetch and for the load of one tick; each has 16 bits.
#[derive(Debug, Clone, Copy, PartialEq, Eq)]
pub struct Waits {
    pub fetch: u32,
    pub load: u32,
}

impl Waits {
    /// No wait told.
    pub const NONE: Self = Self { fetch: 0, load: 0 };
}

impl Row for Waits {
    fn put(&self, out: &mut Vec<u32>) {
        out.extend([self.fetch, self.load]);
    }

    fn take(numbers: &mut &[u32]) -> Option<Self> {
        let [fetch, load] = <[u32; 2]>::take(numbers)?;
        (fetch <= 0xffff && load <= 0xffff).then_some(Self { fetch, load })
    }

    fn names(prefix: &str, out: &mut Vec<String>) {
        out.extend([join(prefix, "fetch"), join(prefix, "load")]);
    }
}
