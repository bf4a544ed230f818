//! Lists of ticks from a fresh state.

use super::Maker;
use super::program::Program;
use crate::case::Case;
use crate::refusals::{self, NONE};
use crate::rows::{Input, Seen, State};

/// Ticks after the machine has stopped for good.
const TICKS_AFTER_THE_END: u32 = 4;
const LONGEST: u32 = 200;

impl Maker {
    /// Appends a start, up to 200 ticks, some of them refused, and the state at the end.
    pub fn list(&mut self, out: &mut Vec<Case>) {
        let program = self.program();
        let begin = self.list_begin();
        let mut state = self.original.start(&begin);
        out.push(Case::ListStart(begin));
        let mut left = self.length();
        while left > 0 {
            let given = self.given(&program, &state);
            out.push(Case::ListTick(given));
            state = self.answers.ticked(&state, &given).1;
            if self.random.chance(4) {
                out.push(Case::ListShow);
            }
            let stopped = !state.running || refusals::standing(&state) != NONE;
            left = (left - 1).min(if stopped {
                TICKS_AFTER_THE_END
            } else {
                LONGEST
            });
            if stopped && self.random.chance(30) {
                break;
            }
        }
        out.push(Case::ListShow);
    }

    /// Chooses how many ticks a list has at most.
    pub fn length(&mut self) -> u32 {
        if self.random.chance(15) {
            1 + self.random.below(LONGEST)
        } else {
            8 + self.random.below(60)
        }
    }

    /// Gives what fits, or now and then something else.
    pub fn given(&mut self, program: &Program, state: &State) -> Input {
        let mut given = self.fitting(program, state);
        let seen = self.seen(state);
        given.waits = self.waits_of(&program.memory, &seen);
        match self.random.below(if state.running { 104 } else { 26 }) {
            0..5 => {
                let offer = self.spoiled_offer(&seen);
                let spoiled = Input { offer, ..given };
                if refusals::offered(&spoiled, &seen) != NONE {
                    given = spoiled;
                }
            }
            5..8 => given.answer = self.answer(!given.answer.given),
            8 => {
                given.offer = self.spoiled_offer(&Seen::default());
                given.answer = self.answer(!given.answer.given);
            }
            9..12 => given.special = self.special(!given.special.is_given()),
            12 => {
                given.answer = self.answer(!given.answer.given);
                given.special = self.special(!given.special.is_given());
            }
            13 => {
                given.offer = self.spoiled_offer(&Seen::default());
                given.special = self.special(!given.special.is_given());
            }
            14..17 => given.waits = self.refused_waits(&seen),
            17 => {
                given.waits = self.refused_waits(&seen);
                given.special = self.special(!given.special.is_given());
            }
            18 => {
                given.waits = self.refused_waits(&seen);
                given.answer = self.answer(!given.answer.given);
            }
            19 => {
                given.waits = self.refused_waits(&seen);
                given.offer = self.spoiled_offer(&Seen::default());
            }
            _ => {}
        }
        given
    }
}
