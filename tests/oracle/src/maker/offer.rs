//! What a tick is offered: mostly what it wants.

use super::Maker;
use crate::case::Case;
use crate::rows::{Answer, Input, LOAD, NORMAL, Offer, Seen};
use crate::special_registers::MFSR;

impl Maker {
    /// Makes a state with what its tick is given.
    pub fn tick(&mut self) -> Case {
        let state = self.state();
        let seen = self.seen(&state);
        Case::Tick(state, self.input(&seen))
    }

    /// Makes an offer and both answers, mostly those that are wanted, and waits now and then.
    pub fn input(&mut self, seen: &Seen) -> Input {
        let offer = if self.random.chance(88) {
            self.wanted_offer(seen)
        } else {
            self.spoiled_offer(seen)
        };
        let given = (seen.request == LOAD) != self.random.chance(5);
        let special_given = seen.special != self.random.chance(8);
        Input {
            offer,
            answer: self.answer(given),
            special: self.special(special_given),
            waits: self.waits(seen),
        }
    }

    /// Makes a load answer, or none.
    pub fn answer(&mut self, given: bool) -> Answer {
        Answer {
            given,
            word: if given { self.word() } else { 0 },
        }
    }

    /// Makes an offer of the wanted kind.
    fn wanted_offer(&mut self, seen: &Seen) -> Offer {
        match seen {
            Seen { fetch: false, .. } => Offer::Nothing,
            Seen { mode: NORMAL, .. } => Offer::Normal(self.normal()),
            _ => Offer::Short(self.halfword()),
        }
    }

    /// Makes an offer that is most often refused, for each of the reasons.
    pub fn spoiled_offer(&mut self, seen: &Seen) -> Offer {
        match self.random.below(5) {
            0 => Offer::Nothing,
            1 => Offer::Normal(self.normal()),
            2 => Offer::Short(self.halfword()),
            3 => {
                let variant = self
                    .random
                    .pick(&[MFSR, 0x03, 0x02, 0x08, 0x0b, 0x24, 0x2a]);
                Offer::Normal(self.normal_at_a_bound(variant))
            }
            _ => match self.wanted_offer(seen) {
                Offer::Normal(instruction) => {
                    Offer::Normal(self.normal_at_a_bound(instruction.variant))
                }
                other => other,
            },
        }
    }
}
