//! What the program tickrun prints, RULES 20.

use crate::cpu_pipeline::harness::original::Original;
use crate::rows::{Begin, NORMAL, State};
use crate::runner::{self, End, HIGHEST_LIMIT, Run, Task};
use std::io::{Read, Result, Write};

/// The start of the program, RULES 20.1.
pub const BEGIN: Begin = Begin {
    reg: [0; 32],
    pc: 0,
    mode: NORMAL,
    user: false,
    features: 0,
};

/// Reads a sheet, runs it without load answers and with an empty table, and prints what came of it.
pub fn run(mut input: impl Read, mut output: impl Write) -> Result<()> {
    let mut sheet = Vec::new();
    input.read_to_end(&mut sheet)?;
    let mut original = Original::fresh();
    let state = original.start(&BEGIN);
    let task = Task {
        sheet: &sheet,
        answers: &[],
        table: &[],
        limit: HIGHEST_LIMIT,
    };
    let run = runner::run(&mut original, &state, &task);
    print_counts(&run, &mut output)?;
    print_registers(&run.state, &mut output)?;
    output.flush()
}

/// Prints how the run ended and its counters.
fn print_counts(run: &Run, out: &mut impl Write) -> Result<()> {
    match run.end {
        End::Halted => writeln!(out, "end halted")?,
        End::Spent => writeln!(out, "end spent")?,
        End::Loads => writeln!(out, "end loads")?,
        End::Refused(number) => writeln!(out, "end refused {number}")?,
    }
    writeln!(out, "ticks {}", run.ticks)?;
    writeln!(out, "retired {}", run.state.instructions_executed)?;
    writeln!(out, "stalls {}", run.state.stall_cycles)?;
    writeln!(out, "flushes {}", run.state.flush_events)
}

/// Prints the registers that are not zero.
fn print_registers(state: &State, out: &mut impl Write) -> Result<()> {
    for (register, value) in state.reg.iter().enumerate() {
        if *value != 0 {
            writeln!(out, "R{register} {value}")?;
        }
    }
    Ok(())
}
