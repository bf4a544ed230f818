//! What a run is given and what comes of it.

use crate::row::Row;
use crate::rows::{Seen, State};

/// Start and factor of the hash over the requests.
const HASH_START: u32 = 2_166_136_261;
const HASH_FACTOR: u32 = 16_777_619;

/// What a run is given besides the state.
pub struct Task<'a> {
    pub sheet: &'a [u8],
    pub answers: &'a [u32],
    /// The words of the special registers, each at the place of its number.
    pub table: &'a [u32],
    pub limit: u32,
}

/// How a run ends.
#[derive(Debug, Clone, Copy, PartialEq, Eq)]
pub enum End {
    Halted,
    Spent,
    Loads,
    Refused(u32),
}

impl End {
    /// Gives the number of the end and the number of the refusal or 0.
    fn numbers(self) -> [u32; 2] {
        match self {
            End::Halted => [0, 0],
            End::Spent => [1, 0],
            End::Loads => [2, 0],
            End::Refused(number) => [3, number],
        }
    }
}

/// What has come of a run.
pub struct Run {
    pub end: End,
    /// Accepted ticks, and the loads and stores that they asked for.
    pub ticks: u32,
    pub requests: u32,
    pub hash: u32,
    pub state: State,
}

impl Run {
    /// Begins at a state.
    pub fn new(state: &State) -> Self {
        Self {
            end: End::Spent,
            ticks: 0,
            requests: 0,
            hash: HASH_START,
            state: *state,
        }
    }

    /// Counts an accepted tick and what it asked for.
    pub fn count(&mut self, seen: &Seen) {
        self.ticks += 1;
        if seen.request == 0 {
            return;
        }
        self.requests += 1;
        for number in [seen.request, seen.address, seen.width, seen.word] {
            self.hash = (self.hash ^ number).wrapping_mul(HASH_FACTOR);
        }
    }

    /// Appends the numbers of the result line.
    pub fn put(&self, out: &mut Vec<u32>) {
        self.end.numbers().put(out);
        [self.ticks, self.requests, self.hash].put(out);
        self.state.put(out);
    }

    /// Appends the names of these numbers.
    pub fn names(out: &mut Vec<String>) {
        out.extend(["end", "number", "ticks", "requests", "hash"].map(String::from));
        State::names("", out);
    }
}
