//! Small programs, dense in hazards, that offer the same instruction at the same address and mode.

use super::Maker;
use super::instruction::{BRANCHES, JUMPS, MUL_DIV};
use super::memory::Memory;
use crate::cpu_pipeline::harness::Numbers;
use crate::refusals::{self, NONE};
use crate::rows::{Begin, Input, LOAD, NORMAL, Offer, Seen, State, Waits};
use crate::special_registers::MFSR;

/// Arithmetic that does not wait, immediate loads, and ADDI for loops.
const PLAIN: [u32; 17] = [
    0x03, 0x04, 0x04, 0x04, 0x04, 0x05, 0x06, 0x13, 0x14, 0x15, 0x16, 0x17, 0x18, 0x19, 0x1a, 0x24,
    0x25,
];
/// Loads and stores of all widths.
const MEMORY: [u32; 9] = [0x01, 0x01, 0x01, 0x20, 0x21, 0x21, 0x02, 0x22, 0x23];
/// Position of CPUID in the enum.
const CPUID: u32 = 0x11;
/// CPUID and NOP often; HALT, Unknown, IRET, SYSCALL and MTSR end a run.
const OTHERS: [u32; 11] = [
    CPUID, CPUID, CPUID, 0x00, 0x00, 0x12, 0x12, 0x26, 0x27, 0x28, 0x2a,
];

/// The instructions of both modes, where addresses past the end begin again, and the memory that they stand in.
pub struct Program {
    normal: Vec<Numbers>,
    short: Vec<u32>,
    pub memory: Memory,
}

impl Program {
    /// Gives what is offered at an address in a mode.
    fn offer_at(&self, pc: u32, mode: u32) -> Offer {
        if mode == NORMAL {
            Offer::Normal(self.normal[(pc / 4) as usize % self.normal.len()])
        } else {
            Offer::Short(self.short[(pc / 2) as usize % self.short.len()])
        }
    }
}

impl Maker {
    /// Makes a program of 4 to 40 instructions.
    pub fn program(&mut self) -> Program {
        let length = 4 + self.random.below(37);
        let normal_count = length / 3 + self.random.below(length / 3 + 2);
        let others = self.random.pick(&[1, 3, 10]);
        if self.random.chance(60) {
            self.registers[3] = self.registers[0];
        }
        let identifies = self.random.chance(15);
        if identifies {
            self.registers[1..3].copy_from_slice(&[1, 2]);
        }
        let mut program = Program {
            normal: (0..normal_count)
                .map(|_| self.listed_normal(others))
                .collect(),
            short: (normal_count..length)
                .map(|_| self.listed_short())
                .collect(),
            memory: self.memory(),
        };
        if identifies {
            let place = self.random.below(normal_count) as usize;
            program.normal[place] = self.normal_of(CPUID);
        }
        program
    }

    /// Makes a Normal instruction for a program, with short ways for branches and jumps.
    pub fn listed_normal(&mut self, others: u32) -> Numbers {
        let variant = match self.random.below(39 + others) {
            0..11 => self.random.pick(&PLAIN),
            11..22 => self.random.pick(&MEMORY),
            22..29 => self.random.pick(&BRANCHES),
            29..34 => self.random.pick(&MUL_DIV),
            34..37 => self.random.pick(&JUMPS),
            37 | 38 => MFSR,
            _ => self.random.pick(&OTHERS),
        };
        let mut instruction = self.normal_of(variant);
        match variant {
            0x07 | 0x08 => instruction.fields[2] = self.short_way(45),
            0x09 | 0x0a | 0x0c | 0x0d => instruction.fields[0] = self.short_way(25),
            0x04 => instruction.fields[2] = self.random.pick(&[0xffff_ffff, 1, 2, 4]),
            _ => {}
        }
        instruction
    }

    /// Makes an offset of a few instructions, backward so many times in a hundred.
    fn short_way(&mut self, backward: u32) -> u32 {
        let way = 4 * self.random.below(9);
        if self.random.chance(backward) {
            0u32.wrapping_sub(way)
        } else {
            way
        }
    }

    /// Makes a short instruction for a program.
    pub fn listed_short(&mut self) -> u32 {
        let low = self.halfword() & 0xfff;
        match self.random.below(40) {
            0..4 => low,
            4..9 => 0x1000 | low,
            9..12 => 0x2000 | (low & 0xf00) | self.random.pick(&[0xff, 1, 2]),
            12..19 => 0x3000 | low,
            19..22 => 0x4000 | low,
            22..29 => {
                let nibble = self.random.pick(&[0x5000, 0x6000]);
                nibble | (low & 0xf00) | (self.short_way(45) & 0xff)
            }
            29 | 30 => 0x7000 | low,
            31 | 32 => 0x8000 | (self.short_way(25) & 0xfff),
            33..35 => 0x9000 | (low & 0xf00) | self.random.below(8),
            35..39 => 0xf000 | low,
            _ => 0xa000 | low,
        }
    }

    /// Makes a start with small register values most often, so that loops end.
    pub fn list_begin(&mut self) -> Begin {
        let mut begin = self.begin();
        for value in &mut begin.reg {
            if self.random.chance(60) {
                *value = self.random.below(12);
            }
        }
        begin.user = self.random.chance(20);
        begin
    }

    /// Gives what the program, some memory and some special registers offer to a tick on this state, with no wait.
    pub fn fitting(&mut self, program: &Program, state: &State) -> Input {
        let seen = self.seen(state);
        let offer = if seen.fetch {
            program.offer_at(seen.pc, seen.mode)
        } else {
            Offer::Nothing
        };
        Input {
            offer,
            answer: self.answer(seen.request == LOAD),
            special: self.special(seen.special),
            waits: Waits::NONE,
        }
    }

    /// Tells what a tick on this state asks for, or nothing if it is refused anyway.
    pub fn seen(&mut self, state: &State) -> Seen {
        if refusals::standing(state) == NONE {
            self.original.asked(state)
        } else {
            Seen::default()
        }
    }
}
