//! The original Rust pipeline, compiled unmodified, timed on a step sheet.
//!
//! Standard input: rounds and tick limit, four bytes each, high byte first, then the sheet.
//! The sheet is run from its start that many times; the ticks and the retired instructions of all runs are printed.

mod bus;
mod cpu_cache;
mod sheet;

#[allow(dead_code)]
#[path = "../../../tests/oracle/src/stand_ins/cpu.rs"]
mod cpu;
#[path = "../../../tests/oracle/src/stand_ins/devices/expansion.rs"]
mod expansion;
#[path = "../../../tests/oracle/src/stand_ins/devices/interrupts.rs"]
mod interrupts;
#[path = "../../../tests/oracle/src/stand_ins/devices/cpu.rs"]
mod register_block;
#[path = "../../../tests/oracle/src/stand_ins/devices/trace_switch.rs"]
mod trace_switch;
#[path = "../../../tests/oracle/src/stand_ins/tracing.rs"]
mod tracing;

use cpu_pipeline::rounds::Total;
use std::io::{Error, Read, Result, stdin};
use std::process::ExitCode;

/// The oracle's devices, which do nothing, under the paths that the original uses.
mod devices {
    pub(crate) use crate::expansion;
    pub(crate) use crate::register_block as cpu;

    pub mod irqc {
        pub(crate) use crate::interrupts as irqc;
    }

    pub mod pec {
        pub(crate) use crate::trace_switch as pec;
    }
}

/// The original privilege state, as published.
#[allow(dead_code, clippy::all)]
#[rustfmt::skip]
#[path = "../../../docs/src/src/cpu_privilege.rs"]
mod cpu_privilege;

/// The original pipeline, as published, with the timed loop as a child so that private fields are in reach.
#[allow(dead_code, clippy::all)]
mod cpu_pipeline {
    use crate::tracing;

    include!("../../../docs/src/src/cpu_pipeline.rs");

    #[warn(dead_code, clippy::all)]
    pub mod rounds;
}

/// Prints ticks and instructions of all runs, or says what is wrong with the input and ends with 2.
fn main() -> ExitCode {
    match total() {
        Ok(total) => {
            println!("{} {}", total.ticks, total.instructions);
            ExitCode::SUCCESS
        }
        Err(error) => {
            eprintln!("rounds: {error}");
            ExitCode::from(2)
        }
    }
}

/// Reads standard input, runs it and gives the ticks and instructions of all runs.
fn total() -> Result<Total> {
    let mut input = Vec::new();
    stdin().lock().read_to_end(&mut input)?;
    let Some((head, sheet)) = input.split_first_chunk::<8>() else {
        return Err(Error::other("eight bytes must stand before the sheet"));
    };
    let [r0, r1, r2, r3, l0, l1, l2, l3] = *head;
    let rounds = u32::from_be_bytes([r0, r1, r2, r3]);
    let limit = u32::from_be_bytes([l0, l1, l2, l3]);
    let bus = bus::Bus::holding(&sheet::memory(sheet)?);
    cpu_pipeline::PipelineCpu::new(bus).rounds(rounds, limit)
}
