//! Instructions that rows offer, and what is given to a tick that meets them.

use crate::cpu_pipeline::harness::Numbers;
use crate::rows::{Answer, Input, LOAD, NORMAL, Offer, Seen, Special, Waits};

pub const NOP: Offer = normal(0x00, [0; 3]);
pub const CPUID: Offer = normal(0x11, [0; 3]);
pub const HALT: Offer = normal(0x12, [0; 3]);

/// Makes an offer of a Normal instruction.
pub const fn normal(variant: u32, fields: [u32; 3]) -> Offer {
    Offer::Normal(Numbers { variant, fields })
}

/// Makes an ADDI.
pub const fn addi(rd: u32, rs1: u32, imm: i32) -> Offer {
    normal(0x04, [rd, rs1, imm as u32])
}

/// Gives a tick what it asks for: the instructions from address 0 on, behind them NOP or MOV R0,R0; to each load the
/// same word.
pub fn given(offers: &[Offer], loaded: u32, seen: &Seen) -> Input {
    let (size, behind) = match seen.mode {
        NORMAL => (4, NOP),
        _ => (2, Offer::Short(0)),
    };
    let offered = offers.get((seen.pc / size) as usize);
    let loads = seen.request == LOAD;
    Input {
        offer: match seen.fetch {
            true => *offered.unwrap_or(&behind),
            false => Offer::Nothing,
        },
        answer: Answer {
            given: loads,
            word: if loads { loaded } else { 0 },
        },
        special: Special::NotGiven,
        waits: Waits::NONE,
    }
}
