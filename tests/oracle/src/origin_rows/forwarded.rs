//! Rows that ask for the origin of one register, with both older latches handed in.

use super::Expected;
use super::latches::{empty, ex_mem, identifying_ex_mem, identifying_mem_wb, mem_wb};
use crate::case::Case;
use crate::rows::{ExMem, MemWb, Origin, State};
use Origin::{RegisterFile, ZeroRegister};

/// Gives the lines of these rows.
pub fn rows() -> Vec<Expected> {
    let rows = written().into_iter().chain(identified()).chain(kept());
    rows.map(|(ex_mem, mem_wb, register, origin)| {
        let state = State {
            ex_mem,
            mem_wb,
            ..empty()
        };
        Expected {
            case: Case::Forwarded(state, register),
            origins: vec![origin],
        }
    })
    .collect()
}

/// EX/MEM, MEM/WB, a register and its origin.
type Forwarded = (ExMem, MemWb, u32, Origin);

/// Latches that write a register: the newer one gives it, but a load does not.
fn written() -> Vec<Forwarded> {
    let (no_ex_mem, no_mem_wb) = (empty().ex_mem, empty().mem_wb);
    let mut load = ex_mem(5);
    load.is_load = true;
    vec![
        (ex_mem(0), mem_wb(0), 0, ZeroRegister),
        (ex_mem(5), no_mem_wb, 5, Origin::ExMem),
        (ex_mem(5), mem_wb(5), 5, Origin::ExMem),
        (no_ex_mem, mem_wb(5), 5, Origin::MemWb),
        (ex_mem(6), mem_wb(5), 5, Origin::MemWb),
        (load, mem_wb(5), 5, Origin::MemWb),
        (load, no_mem_wb, 5, RegisterFile),
        (ex_mem(5), mem_wb(5), 6, RegisterFile),
        (ex_mem(31), mem_wb(30), 31, Origin::ExMem),
        (ex_mem(30), mem_wb(31), 31, Origin::MemWb),
    ]
}

/// Latches with CPUID: it gives R1 and R2, and a destination in the same latch comes before it.
fn identified() -> Vec<Forwarded> {
    let (no_ex_mem, no_mem_wb) = (empty().ex_mem, empty().mem_wb);
    let (in_ex_mem, in_mem_wb) = (identifying_ex_mem(), identifying_mem_wb());
    let (mut ex_mem_too, mut mem_wb_too) = (ex_mem(1), mem_wb(1));
    (ex_mem_too.cpuid, mem_wb_too.cpuid) = (true, true);
    let mut load_too = ex_mem_too;
    load_too.is_load = true;
    vec![
        (in_ex_mem, no_mem_wb, 1, Origin::ExMemCpuid),
        (in_ex_mem, no_mem_wb, 2, Origin::ExMemCpuid),
        (in_ex_mem, no_mem_wb, 3, RegisterFile),
        (in_ex_mem, no_mem_wb, 0, ZeroRegister),
        (no_ex_mem, in_mem_wb, 1, Origin::MemWbCpuid),
        (no_ex_mem, in_mem_wb, 2, Origin::MemWbCpuid),
        (no_ex_mem, in_mem_wb, 3, RegisterFile),
        (in_ex_mem, in_mem_wb, 1, Origin::ExMemCpuid),
        (in_ex_mem, mem_wb(1), 1, Origin::ExMemCpuid),
        (ex_mem(1), in_mem_wb, 1, Origin::ExMem),
        (ex_mem(1), in_mem_wb, 2, Origin::MemWbCpuid),
        (ex_mem_too, no_mem_wb, 1, Origin::ExMem),
        (ex_mem_too, no_mem_wb, 2, Origin::ExMemCpuid),
        (no_ex_mem, mem_wb_too, 1, Origin::MemWb),
        (no_ex_mem, mem_wb_too, 2, Origin::MemWbCpuid),
        (load_too, no_mem_wb, 1, Origin::ExMemCpuid),
    ]
}

/// Latches that are not valid, or do not write: they give nothing.
fn kept() -> Vec<Forwarded> {
    let (no_ex_mem, no_mem_wb) = (empty().ex_mem, empty().mem_wb);
    let mut invalid = (ex_mem(1), mem_wb(1));
    (invalid.0.cpuid, invalid.1.cpuid) = (true, true);
    (invalid.0.valid, invalid.1.valid) = (false, false);
    let mut unwritten = (ex_mem(5), mem_wb(5));
    (unwritten.0.writeback, unwritten.1.writeback) = (false, false);
    vec![
        (invalid.0, no_mem_wb, 1, RegisterFile),
        (no_ex_mem, invalid.1, 1, RegisterFile),
        (invalid.0, mem_wb(1), 1, Origin::MemWb),
        (ex_mem(1), invalid.1, 1, Origin::ExMem),
        (unwritten.0, no_mem_wb, 5, RegisterFile),
        (no_ex_mem, unwritten.1, 5, RegisterFile),
        (unwritten.0, mem_wb(5), 5, Origin::MemWb),
    ]
}
