//! Rows that fetch some instructions from a start: what asking shows before each tick.

use super::Expected;
use crate::answers::Answers;
use crate::case::Case;
use crate::cpu_pipeline::harness::original::Original;
use crate::offers::{CPUID, HALT, NOP, addi, given, normal};
use crate::rows::{Begin, NORMAL, Offer, Origin, SHORT};
use crate::tickrun::BEGIN;
use Origin::{ExMem, ExMemCpuid, MemWb, MemWbCpuid, RegisterFile, ZeroRegister};

/// A row: the instructions from address 0 on, the first tick that executes, and the origins of A and B from it on; none
/// are shown before it.
type Listed = (&'static [Offer], usize, &'static [[Origin; 2]]);

/// Nothing executes; both operands come from the register file, as those of NOP, CPUID and HALT do.
const NONE: [Origin; 2] = [Origin::NotShown; 2];
const FILE: [Origin; 2] = [RegisterFile; 2];

const LDI_R2_7: Offer = Offer::Short(0x9207);
const LD_R5: Offer = normal(0x01, [5, 0, 8]);
const BEQ_R0_R0: Offer = normal(0x07, [0; 3]);
const DIV_R2_R1_R0: Offer = normal(0x1c, [2, 1, 0]);

/// The word of every load.
const LOADED: u32 = 21;

/// Makes an ADD.
const fn add(rd: u32, rs1: u32, rs2: u32) -> Offer {
    normal(0x03, [rd, rs1, rs2])
}

/// Makes a MUL.
const fn mul(rd: u32, rs1: u32, rs2: u32) -> Offer {
    normal(0x1b, [rd, rs1, rs2])
}

/// The rows without a wait.
const PLAIN: [Listed; 8] = [
    // A named R0 is the zero register, and an operand without a source has the register file.
    (&[add(3, 0, 1)], 3, &[[ZeroRegister, RegisterFile]]),
    (&[LDI_R2_7], 3, &[FILE]),
    // BEQ R0,R0,0 redirects, so that nothing executes in the next two ticks.
    (&[BEQ_R0_R0], 3, &[[ZeroRegister; 2], NONE, NONE, FILE]),
    // ADDI R1,R0,3; ADDI R1,R1,-1, then with one and with two NOPs between.
    (
        &[addi(1, 0, 3), addi(1, 1, -1)],
        3,
        &[[ZeroRegister, RegisterFile], [ExMem, RegisterFile]],
    ),
    (
        &[addi(1, 0, 3), NOP, addi(1, 1, -1)],
        3,
        &[[ZeroRegister, RegisterFile], FILE, [MemWb, RegisterFile]],
    ),
    (
        &[addi(1, 0, 3), NOP, NOP, addi(1, 1, -1)],
        3,
        &[[ZeroRegister, RegisterFile], FILE, FILE, FILE],
    ),
    // LD R5,R0+8; ADD R6,R5,R5: the load executes while its user waits, and MEM/WB gives its word.
    (
        &[LD_R5, add(6, 5, 5)],
        3,
        &[[ZeroRegister, RegisterFile], NONE, [MemWb; 2]],
    ),
    // HALT; NOP; ADD R3,R0,R1: HALT retires in tick 5 and empties ID/EX; the machine does not run in tick 6.
    (&[HALT, NOP, add(3, 0, 1)], 3, &[FILE, FILE, NONE, NONE]),
];

/// The rows with CPUID, which gives R1 and R2.
const IDENTIFYING: [Listed; 8] = [
    // R3 is not CPUID's, and of two that write R3 the newer one gives it.
    (
        &[CPUID, addi(3, 3, 1), addi(3, 3, 1), add(2, 3, 3)],
        3,
        &[FILE, FILE, [ExMem, RegisterFile], [ExMem; 2]],
    ),
    (&[CPUID, add(3, 1, 2)], 3, &[FILE, [ExMemCpuid; 2]]),
    (
        &[CPUID, add(4, 3, 2)],
        3,
        &[FILE, [RegisterFile, ExMemCpuid]],
    ),
    (
        &[CPUID, NOP, add(3, 1, 2)],
        3,
        &[FILE, FILE, [MemWbCpuid; 2]],
    ),
    (
        &[CPUID, NOP, NOP, add(3, 1, 2)],
        3,
        &[FILE, FILE, FILE, FILE],
    ),
    (
        &[CPUID, CPUID, add(3, 1, 2)],
        3,
        &[FILE, FILE, [ExMemCpuid; 2]],
    ),
    (
        &[CPUID, addi(1, 0, 3), add(3, 1, 2)],
        3,
        &[FILE, [ZeroRegister, RegisterFile], [ExMem, MemWbCpuid]],
    ),
    (
        &[addi(1, 0, 3), CPUID, add(3, 1, 2)],
        3,
        &[[ZeroRegister, RegisterFile], FILE, [ExMemCpuid; 2]],
    ),
];

/// The rows with a wait: none while it begins and goes on, 2 ticks for MUL and 15 for DIV, and then those of its end.
const WAITING: [Listed; 3] = [
    (&[mul(4, 3, 3)], 5, &[FILE]),
    (
        &[addi(3, 0, 7), mul(4, 3, 3), add(5, 4, 3)],
        3,
        &[
            [ZeroRegister, RegisterFile],
            NONE,
            NONE,
            FILE,
            [ExMem, RegisterFile],
        ],
    ),
    (&[DIV_R2_R1_R0], 18, &[[RegisterFile, ZeroRegister]]),
];

/// Gives the lines of these rows.
pub fn rows() -> Vec<Expected> {
    let rows = PLAIN.iter().chain(&IDENTIFYING).chain(&WAITING);
    rows.flat_map(lines).collect()
}

/// Gives a start and a tick for each pair of origins, those before the first among them.
fn lines(&(offers, first, shown): &Listed) -> Vec<Expected> {
    let (mut original, mut answers) = (Original::fresh(), Answers::new());
    let is_short = matches!(offers[0], Offer::Short(_));
    let begin = Begin {
        mode: if is_short { SHORT } else { NORMAL },
        ..BEGIN
    };
    let mut state = original.start(&begin);
    let mut lines = vec![Expected {
        case: Case::ListStart(begin),
        origins: Vec::new(),
    }];
    for origins in std::iter::repeat_n(&NONE, first - 1).chain(shown) {
        let given = given(offers, LOADED, &original.asked(&state));
        state = answers.ticked(&state, &given).1;
        lines.push(Expected {
            case: Case::ListTick(given),
            origins: origins.to_vec(),
        });
    }
    lines
}
