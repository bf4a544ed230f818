//! Lets the original's MFSR read the word that the caller gives, or meet a register that it does not know.

use super::{Decoded, IfId, Instruction, PipelineCpu, RawInstr};
use crate::cpu_privilege::{SR_CAUSE, SR_EPC};
use crate::rows::Special;

/// Registers of the original that nothing here reads, and numbers of none; one of two is not IF/ID's.
const HOLDERS: [u16; 2] = [SR_EPC, SR_CAUSE];
const NO_REGISTERS: [u16; 2] = [0xffff, 0xfffe];

/// Lets an MFSR in ID/EX travel with the number of a register that holds the word, or of none.
pub fn put_in_place(core: &mut PipelineCpu, special: Special) {
    let Decoded::Normal(Instruction::Mfsr { rd, .. }) = core.id_ex.decoded else {
        return;
    };
    let numbers = match special {
        Special::NotGiven => return,
        Special::NoSuchRegister => NO_REGISTERS,
        Special::Word(_) => HOLDERS,
    };
    let read_by_if_id = number_in(&core.if_id);
    let number = numbers.into_iter().find(|&sr| Some(sr) != read_by_if_id);
    let sr = number.expect("two numbers");
    if let Special::Word(word) = special {
        core.sys.write_sr(sr, word, &mut core.reg);
    }
    core.id_ex.decoded = Decoded::Normal(Instruction::Mfsr { rd, sr });
}

/// Gives the number of the special register that IF/ID's MFSR names.
fn number_in(latch: &IfId) -> Option<u16> {
    let RawInstr::Normal(word) = latch.raw else {
        return None;
    };
    match PipelineCpu::decode(word) {
        Instruction::Mfsr { sr, .. } => Some(sr),
        _ => None,
    }
}

/// Lets an executed latch name its own register again.
pub fn give_back(executed: &mut Decoded, altered: Decoded, held: Decoded) {
    if *executed == altered {
        *executed = held;
    }
}
