//! Makes the register block, which RULES does not have, leave no trace in a tick with four empty latches.

use super::{InstructionMode, PipelineCpu, REG_ZERO};

/// What the original takes over from the block and RULES leaves alone.
pub struct Held {
    retire_pc: u32,
    retire_mode: InstructionMode,
    reg_zero: u32,
}

/// Publishes the fetch place and the registers, and notes what will have to be put back.
pub fn publish(core: &PipelineCpu) -> Option<Held> {
    let mut block = core.register_block.borrow_mut();
    block.regs = core.reg;
    block.pc = core.fetch_pc;
    block.epc = core.sys.epc;
    block.cause = core.sys.cause;
    block.status = core.sys.status();
    block.instr_mode = u32::from(core.fetch_mode == InstructionMode::Short);
    core.pipeline_empty().then_some(Held {
        retire_pc: core.retire_pc,
        retire_mode: core.retire_mode,
        reg_zero: core.reg[REG_ZERO],
    })
}

/// Puts back what the block has overwritten.
pub fn put_back(core: &mut PipelineCpu, held: Option<Held>) {
    if let Some(held) = held {
        core.retire_pc = held.retire_pc;
        core.retire_mode = held.retire_mode;
        core.reg[REG_ZERO] = held.reg_zero;
    }
}
