//! Rows that execute a latch by itself: it passes on both origins, whatever it holds.

use super::Expected;
use super::latches::{ADD, NOP, empty, ex_mem, id_ex, mem_wb};
use crate::case::Case;
use crate::rows::{IdEx, Origin, Special, State};
use Origin::{ExMem, MemWb, RegisterFile, ZeroRegister};

/// Gives the lines of these rows; EX/MEM writes R3 and MEM/WB R2.
pub fn rows() -> Vec<Expected> {
    let state = State {
        ex_mem: ex_mem(3),
        mem_wb: mem_wb(2),
        ..empty()
    };
    let rows = latches().into_iter();
    rows.map(|(latch, origins)| Expected {
        case: Case::Execute(state, latch, Special::NotGiven),
        origins: origins.to_vec(),
    })
    .collect()
}

/// Gives latches with the origins of their operands.
fn latches() -> Vec<(IdEx, [Origin; 2])> {
    let add = id_ex(ADD, 2);
    let reading = |src0, src1| IdEx { src0, src1, ..add };
    let raising = IdEx {
        exception: 2,
        ..add
    };
    let invalid = IdEx {
        valid: false,
        ..add
    };
    vec![
        (add, [ExMem; 2]),
        (reading(3, 2), [ExMem, MemWb]),
        (reading(2, 3), [MemWb, ExMem]),
        (reading(0, 5), [ZeroRegister, RegisterFile]),
        (reading(5, 0), [RegisterFile, ZeroRegister]),
        (id_ex(ADD, 1), [ExMem, RegisterFile]),
        (id_ex(ADD, 0), [RegisterFile; 2]),
        (id_ex(NOP, 0), [RegisterFile; 2]),
        (id_ex(NOP, 2), [ExMem; 2]),
        (raising, [ExMem; 2]),
        (invalid, [ExMem; 2]),
    ]
}
