//! Puts the state's feature word in place of the original's constant.

use super::{CPU_FEATURES, CPU_ID, PipelineCpu, REG_CPUID, REG_FEATURES, REG_ZERO};

/// A register that holds the word for one tick, and what it held before.
pub type Lent = Option<(usize, u32)>;

/// Puts the word where MEM/WB's CPUID would write the constant and where EX/MEM's would forward it.
pub fn put_in_place(core: &mut PipelineCpu, features: u32) -> Lent {
    settle_mem_wb(core, features);
    let wanted = core.id_ex.srcs.contains(&REG_FEATURES) && forwards_the_constant(core);
    wanted.then(|| lend(core, features))
}

/// Does a valid MEM/WB's CPUID beforehand: the registers get what its retirement writes first.
pub fn settle_mem_wb(core: &mut PipelineCpu, features: u32) {
    if !core.mem_wb.valid || !core.mem_wb.cpuid {
        return;
    }
    core.reg[REG_ZERO] = 0;
    core.reg[REG_CPUID] = CPU_ID;
    core.reg[REG_FEATURES] = features;
    core.mem_wb.cpuid = false;
}

/// Lets ID/EX read the word from a register that nothing else uses, where it reads R2.
fn lend(core: &mut PipelineCpu, features: u32) -> (usize, u32) {
    let register = (3..32)
        .find(|&register| is_free(core, register))
        .expect("fewer names than registers");
    for source in &mut core.id_ex.srcs {
        if *source == REG_FEATURES {
            *source = register;
        }
    }
    let held = std::mem::replace(&mut core.reg[register], features);
    (register, held)
}

/// Tells whether no latch reads or writes the register in this tick.
fn is_free(core: &PipelineCpu, register: usize) -> bool {
    core.ex_mem.dest != Some(register)
        && core.mem_wb.dest != Some(register)
        && !core.id_ex.srcs.contains(&register)
        && !core.id_sources(&core.if_id).contains(&register)
}

/// Gives the register back what it held.
pub fn give_back(core: &mut PipelineCpu, lent: Lent) {
    if let Some((register, held)) = lent {
        core.reg[register] = held;
    }
}

/// Gives what is forwarded for a register, with the state's feature word.
pub fn forwarded(core: &mut PipelineCpu, register: usize, features: u32) -> u32 {
    settle_mem_wb(core, features);
    if register == REG_FEATURES && forwards_the_constant(core) {
        features
    } else {
        core.forwarded(register, 0)
    }
}

/// Tells whether R2 is given the constant even when every other value at hand differs from it.
fn forwards_the_constant(core: &mut PipelineCpu) -> bool {
    if !core.ex_mem.cpuid && !core.mem_wb.cpuid {
        return false;
    }
    let held = (core.ex_mem, core.mem_wb, core.reg[REG_FEATURES]);
    core.ex_mem.alu_result = !CPU_FEATURES;
    core.mem_wb.value = !CPU_FEATURES;
    core.reg[REG_FEATURES] = !CPU_FEATURES;
    let forwarded = core.forwarded(REG_FEATURES, 0);
    (core.ex_mem, core.mem_wb, core.reg[REG_FEATURES]) = held;
    forwarded == CPU_FEATURES
}
