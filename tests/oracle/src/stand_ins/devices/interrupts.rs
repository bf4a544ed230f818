//! An interrupt controller that never interrupts.

use crate::bus::Bus;
use std::cell::RefCell;
use std::rc::Rc;

/// The line to the core.
#[derive(Debug, Clone, Copy, Default)]
pub struct IrqOutput {
    pub valid: bool,
    pub number: u8,
}

/// A controller without sources.
#[derive(Debug, Default)]
pub struct IrqController;

impl IrqController {
    /// Raises nothing.
    pub fn irq_output(&self) -> IrqOutput {
        IrqOutput::default()
    }

    /// Takes no notice of a source.
    pub fn set_source(&mut self, _number: u8, _level: bool) {}

    /// Holds nothing to reset.
    pub fn reset(&mut self) {}
}

/// Makes the controller of a bus.
pub fn connect_irqc(_bus: &mut Bus) -> Rc<RefCell<IrqController>> {
    Rc::new(RefCell::new(IrqController))
}
