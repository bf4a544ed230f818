//! What has come of a play.

use super::effect::{Effect, next};
use crate::row::Row;
use crate::rows::Begin;

/// The word that CPUID puts into R1, and the register of a link.
const CPUID_WORD: u32 = 0x5352_4332;
const LINK: u32 = 31;

/// How a play ends.
#[derive(Debug, Clone, Copy, PartialEq, Eq)]
pub enum End {
    Halted,
    Spent,
    Loads,
    Refused(u32),
    Stopped,
}

impl End {
    /// Gives the number of the end and the number of the refusal or 0.
    fn numbers(self) -> [u32; 2] {
        let end = match self {
            End::Halted => 0,
            End::Spent => 1,
            End::Loads => 2,
            End::Refused(number) => return [3, number],
            End::Stopped => 4,
        };
        [end, 0]
    }
}

/// A play that has ended or is under way.
pub struct Played {
    pub end: End,
    /// Instructions done and load answers used.
    pub done: u32,
    pub used: u32,
    /// Registers, address and mode then, user flag and feature word as given.
    pub values: Begin,
    /// Whether a HALT is done.
    pub halted: bool,
}

impl Played {
    /// Begins at what is given, R0's field included.
    pub fn new(begin: &Begin) -> Self {
        Self {
            end: End::Spent,
            done: 0,
            used: 0,
            values: *begin,
            halted: false,
        }
    }

    /// Does an instruction, a load with its answer.
    pub fn put_in_effect(&mut self, effect: Effect, answer: u32) {
        let behind = next(&self.values);
        let mut place = (behind, self.values.mode);
        match effect {
            Effect::Stop => unreachable!("the play stops here"),
            Effect::On => {}
            Effect::Halt => self.halted = true,
            Effect::Cpuid => {
                self.write(1, CPUID_WORD);
                self.write(2, self.values.features);
            }
            Effect::Load(register) => {
                self.write(register, answer);
                self.used += 1;
            }
            Effect::Put(register, word) => self.write(register, word),
            Effect::Go(address, mode) => place = (address, mode),
            Effect::Link(address, mode) => {
                self.write(LINK, behind);
                place = (address, mode);
            }
        }
        (self.values.pc, self.values.mode) = place;
        self.done += 1;
    }

    /// Writes a register other than R0.
    fn write(&mut self, register: u32, word: u32) {
        if register != 0 {
            self.values.reg[register as usize] = word;
        }
    }

    /// Appends the numbers of the result line.
    pub fn put(&self, out: &mut Vec<u32>) {
        self.end.numbers().put(out);
        [self.done, self.used].put(out);
        self.values.put(out);
    }

    /// Appends the names of these numbers.
    pub fn names(out: &mut Vec<String>) {
        out.extend(["end", "number", "done", "used"].map(String::from));
        Begin::names("", out);
    }
}
