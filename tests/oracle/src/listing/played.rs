//! A run of a sheet, turn by turn.

use crate::cpu_pipeline::harness::original::Original;
use crate::refusals::NOT_RETIRABLE;
use crate::rows::{Decoded, IdEx, LOAD, STORE, State};
use crate::runner::{self, End, Task};
use crate::tickrun::BEGIN;
use std::collections::HashMap;

/// An address with a mode.
pub type Place = (u32, u32);

/// An instruction that was done: its place, whether it left the straight way, and the tick in which it retires.
pub struct Step {
    pub place: Place,
    taken: bool,
    pub tick: u32,
}

/// What came of a run. The steps go on to the instruction at which a run ends before that retires.
pub struct Played {
    pub end: End,
    pub ticks: u32,
    pub steps: Vec<Step>,
    /// The ticks in which stores are asked for.
    pub stores: Vec<u32>,
    /// What stood in ID/EX for each place.
    decoded: HashMap<Place, IdEx>,
}

/// Runs a sheet from the start of the program tickrun, one tick at a time.
pub fn play(sheet: &[u8], mut answers: &[u32], limit: u32) -> Played {
    let mut original = Original::fresh();
    let mut state = original.start(&BEGIN);
    let mut played = Played {
        end: End::Spent,
        ticks: 0,
        steps: Vec::new(),
        stores: Vec::new(),
        decoded: HashMap::new(),
    };
    loop {
        let limit = u32::from(played.ticks < limit);
        let task = Task {
            sheet,
            answers,
            table: &[],
            limit,
        };
        let run = runner::run(&mut original, &state, &task);
        if run.ticks == 0 {
            played.finish(run.end, &state);
            return played;
        }
        let request = original.asked(&state).request;
        answers = &answers[usize::from(request == LOAD)..];
        played.tick(&state, request);
        state = run.state;
    }
}

impl Played {
    /// Notes a tick on a state.
    fn tick(&mut self, state: &State, request: u32) {
        self.ticks += 1;
        if request == STORE {
            self.stores.push(self.ticks);
        }
        let (id_ex, mem_wb) = (&state.id_ex, &state.mem_wb);
        if id_ex.valid {
            self.decoded.insert((id_ex.pc, id_ex.mode), *id_ex);
        }
        if mem_wb.valid {
            self.step((mem_wb.pc, mem_wb.mode), mem_wb.branch_taken, self.ticks);
        }
    }

    /// Notes the end, and what stood up to the instruction that is refused or whose load has no answer.
    fn finish(&mut self, end: End, state: &State) {
        let (mem_wb, ex_mem) = (&state.mem_wb, &state.ex_mem);
        let loads = end == End::Loads;
        self.end = end;
        if mem_wb.valid && (loads || end == End::Refused(NOT_RETIRABLE)) {
            let tick = self.ticks + 1;
            self.step((mem_wb.pc, mem_wb.mode), mem_wb.branch_taken, tick);
        }
        if loads {
            self.step((ex_mem.pc, ex_mem.mode), false, self.ticks + 2);
        }
    }

    /// Notes an instruction.
    fn step(&mut self, place: Place, taken: bool, tick: u32) {
        self.steps.push(Step { place, taken, tick });
    }

    /// Gives the addresses of the instructions that follow those at a place.
    pub fn ways_from(&self, place: Place) -> impl Iterator<Item = u32> {
        let pairs = self.steps.windows(2);
        pairs
            .filter(move |pair| pair[0].place == place)
            .map(|pair| pair[1].place.0)
    }

    /// Counts multiplies, divides, used loads and redirects, the M, D, L and R of RULES 15.7.
    pub fn counts(&self) -> [u32; 4] {
        let mut counts = [0; 4];
        for (place, step) in self.steps.iter().enumerate() {
            let latch = &self.decoded[&step.place];
            if let Decoded::Normal(instruction) = latch.decoded {
                counts[0] += u32::from(matches!(instruction.variant, 0x1b | 0x1e));
                counts[1] += u32::from(matches!(instruction.variant, 0x1c | 0x1d | 0x1f));
            }
            if let Some(next) = self.steps.get(place + 1) {
                counts[2] += u32::from(uses(latch, &self.decoded[&next.place]));
                counts[3] += u32::from(step.taken != latch.predicted_taken);
            }
        }
        counts
    }
}

/// Tells whether a load is used by the instruction behind it, RULES 6.2.
fn uses(load: &IdEx, next: &IdEx) -> bool {
    load.is_load && load.dest > 1 && [next.src0, next.src1].contains(&(load.dest - 1))
}
