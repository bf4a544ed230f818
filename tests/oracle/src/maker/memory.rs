//! Waits for the memory: those told with a tick, those left in a state, and what meets them.

use super::Maker;
use crate::refusals::{LONGEST_WAIT, MOST_LEFT};
use crate::rows::{LOAD, Seen, State, Waits};

/// Waits that no fetch and no load has.
const TOO_LONG: [u32; 5] = [
    LONGEST_WAIT + 1,
    LONGEST_WAIT + 1,
    LONGEST_WAIT + 2,
    0x8000,
    0xffff,
];
/// More ticks than can be left.
const TOO_MANY: [u32; 5] = [MOST_LEFT + 2, 0x1_0000, 0x1_0001, 0x8000_0000, 0xffff_ffff];

/// The memory of a list: of a hundred fetches and of a hundred loads so many wait, up to so many ticks.
pub struct Memory {
    fetches: u32,
    loads: u32,
    longest: u32,
}

impl Maker {
    /// Makes the waits of a single tick that asks for this: none most often, and some that are refused.
    pub fn waits(&mut self, seen: &Seen) -> Waits {
        match self.random.below(20) {
            0 | 1 => self.refused_waits(seen),
            2..8 => Waits {
                fetch: self.accepted_wait(seen.fetch),
                load: self.accepted_wait(seen.request == LOAD),
            },
            _ => Waits::NONE,
        }
    }

    /// Makes a wait of a fetch or load, none where there is none.
    fn accepted_wait(&mut self, is_wanted: bool) -> u32 {
        match self.random.below(10) {
            _ if !is_wanted => 0,
            0 | 1 => 0,
            2..6 => 1 + self.random.below(6),
            6 | 7 => self
                .random
                .pick(&[LONGEST_WAIT - 1, LONGEST_WAIT, LONGEST_WAIT]),
            _ => 1 + self.random.below(LONGEST_WAIT),
        }
    }

    /// Makes waits that are refused to a tick which asks for this: that of the fetch, that of the load or both.
    pub fn refused_waits(&mut self, seen: &Seen) -> Waits {
        let fetch = self.refused_wait(seen.fetch);
        let load = self.refused_wait(seen.request == LOAD);
        match self.random.below(5) {
            0 => Waits { fetch, load },
            1 | 2 => Waits { fetch, load: 0 },
            _ => Waits { fetch: 0, load },
        }
    }

    /// Makes a wait that is too long, or any where no fetch or load could wait.
    fn refused_wait(&mut self, is_wanted: bool) -> u32 {
        if is_wanted || self.random.chance(30) {
            self.random.pick(&TOO_LONG)
        } else {
            self.random.pick(&[1, 1, 2, 7, LONGEST_WAIT])
        }
    }

    /// Makes the memory of a list: as fast as a tick half of the time, else slow enough that much still retires, and
    /// seldom as slow as can be.
    pub fn memory(&mut self) -> Memory {
        let (fetches, loads, longest) = match self.random.below(20) {
            0..10 => (0, 0, 1),
            10 | 11 => (100, 0, 1),
            12 | 13 => (0, 100, 3),
            14 => (100, 100, 1),
            15..18 => (30, 60, 4),
            18 => (15, 80, 12),
            _ => (4, 10, LONGEST_WAIT),
        };
        Memory {
            fetches,
            loads,
            longest,
        }
    }

    /// Gives the waits of a memory with a tick that asks for this.
    pub fn waits_of(&mut self, memory: &Memory, seen: &Seen) -> Waits {
        Waits {
            fetch: self.wait_of(memory.fetches, memory.longest, seen.fetch),
            load: self.wait_of(memory.loads, memory.longest, seen.request == LOAD),
        }
    }

    /// Gives the wait of one fetch or load, of which so many in a hundred wait; the longest one most often.
    fn wait_of(&mut self, percent: u32, longest: u32, is_wanted: bool) -> u32 {
        if !is_wanted || !self.random.chance(percent) {
            0
        } else if self.random.chance(60) {
            longest
        } else {
            1 + self.random.below(longest)
        }
    }

    /// Gives how many ticks are left of a wait: few most often, else around a limit or far past it.
    pub fn ticks_left(&mut self) -> u32 {
        match self.random.below(20) {
            0..6 => 1,
            6..9 => 2,
            9..14 => 1 + self.random.below(20),
            14 => self.random.pick(&[LONGEST_WAIT, LONGEST_WAIT + 1]),
            15 => MOST_LEFT - 1,
            16 | 17 => MOST_LEFT,
            18 => MOST_LEFT + 1,
            _ => self.random.pick(&TOO_MANY),
        }
    }

    /// Leaves ticks of a wait before something that would happen in the tick if none were left.
    pub fn wait_for_the_memory(&mut self, state: &mut State) {
        state.wait_left = self.ticks_left();
        match self.random.below(20) {
            0 | 1 => state.running = false,
            2..5 => self.hold_what_never_retires(state),
            5 => {
                self.hold_what_never_retires(state);
                state.running = false;
            }
            6 | 7 => self.halt(state),
            8 => self.fill_one(state),
            9 => self.fill_one_of_a_stopped_machine(state),
            10 => self.empty_latches(state),
            11 | 12 => self.read_a_special_register(state),
            13 | 14 => self.load_or_store(state),
            15 => self.go_on_waiting(state),
            16 => self.begin_a_wait(state),
            17 => self.identify(state),
            _ => {}
        }
    }

    /// Puts a load or a store into EX/MEM.
    fn load_or_store(&mut self, state: &mut State) {
        state.ex_mem.valid = true;
        state.ex_mem.mem_size = self.random.pick(&[1, 2, 4]);
        state.ex_mem.is_load = self.random.chance(60);
        state.ex_mem.is_store = !state.ex_mem.is_load;
    }

    /// Leaves ticks of a wait before a run, in front of what ends it or is refused.
    pub fn wait_before_a_run(&mut self, state: &mut State) {
        match self.random.below(10) {
            0 | 1 => self.load_behind_what_never_retires(state),
            2 => self.hold_what_never_retires(state),
            3 | 4 => self.bring_counters_near_the_top(state),
            5 => state.running = false,
            6 | 7 => self.load_or_store(state),
            8 => self.halt(state),
            _ => {}
        }
        state.wait_left = self.ticks_left();
    }

    /// Chooses a tick limit around the end of the wait.
    pub fn limit_around_the_wait(&mut self, state: &State) -> u32 {
        (state.wait_left.min(MOST_LEFT) + self.random.below(4)).saturating_sub(1)
    }
}
