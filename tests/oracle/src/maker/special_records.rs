//! Records in which an MFSR stands beside what it may be taken for or must not wait for.

use super::Maker;
use super::instruction::MUL_DIV;
use crate::cpu_pipeline::harness::Numbers;

/// Positions in the enum of the instructions beside an MFSR.
const NOP: u32 = 0x00;
const LOAD: u32 = 0x01;
const ADD: u32 = 0x03;
const HALT: u32 = 0x12;
const UNKNOWN: u32 = 0x26;

impl Maker {
    /// Makes an MFSR behind a HALT, an Unknown, a wait or a load, or before a user of its register.
    pub fn beside_a_special_read(&mut self) -> Vec<Numbers> {
        let mut read = self.special_read();
        let mut of = |variant| self.normal_of(variant);
        let [nop, halt, unknown] = [NOP, HALT, UNKNOWN].map(&mut of);
        let (mut load, mut user) = (of(LOAD), of(ADD));
        let variant = self.random.pick(&MUL_DIV);
        let waits = self.normal_of(variant);
        (load.fields[0], user.fields[1]) = (read.fields[0], read.fields[0]);
        match self.random.below(14) {
            0 | 1 => vec![halt, read],
            2 => vec![halt, nop, read],
            3 => vec![unknown, read],
            4 | 5 => vec![waits, read, user],
            6 | 7 => vec![load, read, user],
            8 => {
                (read.fields[0], user.fields[1]) = (0, 0);
                vec![read, user]
            }
            9 => vec![read, self.special_read(), user],
            _ => vec![read, user],
        }
    }
}
