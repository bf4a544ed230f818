//! Where an operand's value comes from, RULES 26.

use crate::row::{Row, row};

/// The origin of a forwarded value, or none shown.
#[derive(Debug, Clone, Copy, PartialEq, Eq, Default)]
pub enum Origin {
    #[default]
    NotShown,
    ZeroRegister,
    ExMem,
    ExMemCpuid,
    MemWb,
    MemWbCpuid,
    RegisterFile,
}

/// Every origin at the place of its number.
const NUMBERED: [Origin; 7] = [
    Origin::NotShown,
    Origin::ZeroRegister,
    Origin::ExMem,
    Origin::ExMemCpuid,
    Origin::MemWb,
    Origin::MemWbCpuid,
    Origin::RegisterFile,
];

impl Row for Origin {
    fn put(&self, out: &mut Vec<u32>) {
        out.push(*self as u32);
    }

    fn take(numbers: &mut &[u32]) -> Option<Self> {
        NUMBERED.get(u32::take(numbers)? as usize).copied()
    }

    fn names(prefix: &str, out: &mut Vec<String>) {
        out.push(prefix.to_string());
    }
}

row! {
    /// The origins of both operands.
    #[derive(Default)]
    Origins {
        a: Origin,
        b: Origin,
    }
}
