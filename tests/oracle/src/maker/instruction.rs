//! Instructions of every kind over the case's registers.

use super::Maker;
use crate::cpu_pipeline::harness::{Numbers, short_numbers_of};
use crate::refusals::register_count;
use crate::rows::{Decoded, Raw};
use crate::special_registers::MFSR;

/// Kinds of Normal instructions that depend on others or change the path.
pub const BRANCHES: [u32; 2] = [0x07, 0x08];
pub const JUMPS: [u32; 8] = [0x09, 0x0a, 0x0b, 0x0c, 0x0d, 0x0e, 0x0f, 0x10];
const MEMORY: [u32; 6] = [0x01, 0x02, 0x20, 0x21, 0x22, 0x23];
/// The sixteen kinds with two operands and a result.
pub const ARITHMETIC: [u32; 16] = [
    0x03, 0x05, 0x06, 0x13, 0x14, 0x15, 0x16, 0x17, 0x18, 0x19, 0x1a, 0x1b, 0x1c, 0x1d, 0x1e, 0x1f,
];
pub const MUL_DIV: [u32; 5] = [0x1b, 0x1c, 0x1d, 0x1e, 0x1f];
/// NOP, CPUID, HALT, Unknown, IRET, SYSCALL, MFSR and MTSR.
pub const SPECIAL: [u32; 8] = [0x00, 0x11, 0x12, 0x26, 0x27, 0x28, MFSR, 0x2a];
const KINDS: u32 = 0x2b;
const SHORT_KINDS: u32 = 12;
const UNKNOWN: u32 = 0x26;

/// The top nibbles of short instructions that depend on others or change the path.
const BUSY_NIBBLES: [u32; 6] = [0x1, 0x3, 0x4, 0x5, 0x6, 0x7];

impl Maker {
    /// Makes a Normal instruction of any kind.
    pub fn normal(&mut self) -> Numbers {
        let variant = match self.random.below(17) {
            0 | 1 => self.random.pick(&BRANCHES),
            2 => self.random.pick(&JUMPS),
            3 => self.random.pick(&MEMORY),
            4 => self.random.pick(&MUL_DIV),
            5 => self.random.pick(&SPECIAL),
            6 => MFSR,
            _ => self.random.below(KINDS),
        };
        self.normal_of(variant)
    }

    /// Makes a Normal instruction of one kind.
    pub fn normal_of(&mut self, variant: u32) -> Numbers {
        let mut fields = [0; 3];
        let registers = register_count(variant);
        for field in &mut fields[..registers] {
            *field = self.register();
        }
        match variant {
            0x00 | 0x0b | 0x0e..=0x10 | 0x11 | 0x12 | 0x27 => {}
            UNKNOWN => fields = self.unknown_fields(),
            0x28 => fields[0] = self.half(),
            MFSR => fields[1] = self.special_number(),
            0x24 | 0x25 | 0x2a => fields[1] = self.half(),
            _ if registers < 3 => fields[registers] = self.offset(),
            _ => {}
        }
        Numbers { variant, fields }
    }

    /// Makes Unknown's halves, of a known instruction's word too.
    fn unknown_fields(&mut self) -> [u32; 3] {
        let word = match self.random.below(4) {
            0 => 0,
            1 => 0x9800_0000 + self.random.below(3),
            _ => self.random.bits() as u32,
        };
        [word >> 16, word & 0xffff, 0]
    }

    /// Makes a halfword for an immediate.
    fn half(&mut self) -> u32 {
        match self.random.below(4) {
            0 => self.random.pick(&[0, 1, 0x7fff, 0x8000, 0xffff]),
            1 => self.random.pick(&[0, 1, 2, 8, 9, 0x10, 0x40]),
            _ => self.random.below(0x1_0000),
        }
    }

    /// Makes a signed offset or immediate as a 32-bit word.
    pub fn offset(&mut self) -> u32 {
        let offset = match self.random.below(10) {
            0 => 0,
            1 => self.random.pick(&[1, 2, 0x7fff, 0xffff_8000, 0xffff_ffff]),
            2..5 => 4 * self.random.below(8),
            5..8 => 0u32.wrapping_sub(4 * self.random.below(8)),
            _ => self.random.below(0x1_0000),
        };
        i32::from(offset as i16) as u32
    }

    /// Makes a halfword of a short instruction.
    pub fn halfword(&mut self) -> u32 {
        let nibble = if self.random.chance(40) {
            self.random.pick(&BUSY_NIBBLES)
        } else {
            self.random.below(16)
        };
        let low = if self.random.chance(60) {
            (self.short_register() << 4) | self.short_register()
        } else {
            self.random.below(0x100)
        };
        (nibble << 12) | (self.short_register() << 8) | low
    }

    /// Makes a short register number, most often of one of the case's registers.
    fn short_register(&mut self) -> u32 {
        match self.register() {
            _ if self.random.chance(12) => self.random.pick(&[14, 15]),
            31 => 15,
            register if register < 15 => register,
            _ => self.random.below(16),
        }
    }

    /// Makes a fetched instruction.
    pub fn raw(&mut self) -> Raw {
        if self.random.chance(60) {
            Raw::Normal(self.normal())
        } else {
            Raw::Short(self.halfword())
        }
    }

    /// Makes a decoded instruction.
    pub fn decoded(&mut self) -> Decoded {
        if self.random.chance(60) {
            Decoded::Normal(self.normal())
        } else if self.random.chance(60) {
            Decoded::Short(short_numbers_of(self.halfword() as u16))
        } else {
            Decoded::Short(self.free_short())
        }
    }

    /// Makes a decoded short instruction that no halfword decodes to, with registers up to 255.
    fn free_short(&mut self) -> Numbers {
        let variant = self.random.below(SHORT_KINDS);
        let byte = |maker: &mut Maker| maker.random.below(0x100);
        let signed = |maker: &mut Maker| i32::from(maker.random.bits() as i8) as u32;
        let fields = match variant {
            0x0 | 0x3 | 0x4 | 0x9 => [byte(self), byte(self), 0],
            0x1 => [byte(self), byte(self), byte(self)],
            0x2 | 0x5 | 0x6 => [byte(self), signed(self), 0],
            0x7 => [byte(self), 0, 0],
            0x8 => [self.offset(), 0, 0],
            0xa => [0; 3],
            _ => [self.half(), 0, 0],
        };
        Numbers { variant, fields }
    }
}
