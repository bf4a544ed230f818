//! The few items of the original cpu.rs that the pipeline uses.

use std::time::Duration;

/// Address of the first interrupt vector.
pub const IRQ_VECTOR_BASE: u32 = 0xFFFF_0100;

/// Width of the instructions.
#[derive(Debug, Clone, Copy, PartialEq, Eq)]
pub enum InstructionMode {
    Normal,
    Short,
}

/// An instruction as text.
#[derive(Debug, Clone, PartialEq, Eq)]
pub struct DecodedInstruction {
    pub text: String,
    pub size: u8,
    pub mode: InstructionMode,
    pub next_mode: InstructionMode,
}

/// The stages that a profile tells apart.
#[derive(Debug, Clone, Copy, PartialEq, Eq)]
pub enum CpuProfileStage {
    DeviceIrq,
    Fetch,
    Decode,
    Execute,
    Memory,
    Commit,
    Other,
}

/// A profile that keeps only the count of ticks.
#[derive(Debug, Clone, Copy, Default, PartialEq, Eq)]
pub struct CpuProfile {
    pub ticks: u128,
}

impl CpuProfile {
    /// Drops the time of a stage.
    pub fn record(&mut self, _stage: CpuProfileStage, _duration: Duration) {}
}
