//! Devices, none of which does anything, under the paths that the original uses.

pub mod cpu;
pub mod expansion;
pub mod interrupts;
pub mod trace_switch;

/// The path of the interrupt controller.
pub mod irqc {
    pub use super::interrupts as irqc;
}

/// The path of the trace switch.
pub mod pec {
    pub use super::trace_switch as pec;
}
