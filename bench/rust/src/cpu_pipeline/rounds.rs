//! The timed loop: the original's plain `tick()`, called until the machine stops or the limit is used up.

use super::PipelineCpu;
use std::io::{Error, Result};

/// What all runs have used and retired.
#[derive(Default)]
pub struct Total {
    pub ticks: u64,
    pub instructions: u128,
}

impl PipelineCpu {
    /// Runs from address 0 that many times and adds up the ticks and the retired instructions.
    pub fn rounds(&mut self, rounds: u32, limit: u32) -> Result<Total> {
        let mut total = Total::default();
        for _ in 0..rounds {
            self.reset(0);
            self.bus.rewind();
            total.ticks += u64::from(self.run_once(limit));
            total.instructions += self.instructions_executed;
            if !self.bus.had_answers() {
                return Err(Error::other("too few load answers for this limit"));
            }
        }
        Ok(total)
    }

    /// Ticks until the machine stops or the limit is used up, and gives the number of ticks.
    fn run_once(&mut self, limit: u32) -> u32 {
        let mut ticks = 0;
        while self.running && ticks < limit {
            self.tick();
            ticks += 1;
        }
        ticks
    }
}
