//! Rows of two and three records: which registers keep neighbours from trading.

use super::lines::{NOP, Record, listed, row, three};
use crate::checked_rows::Expected;
use crate::refusals::NONE;

/// Entries of the list for a pair, one more than needed.
const ENTRIES: u32 = 2;

/// Gives the lines of these rows.
pub fn rows() -> Vec<Expected> {
    let pairs = trading().into_iter().map(|pair| (pair, &[0][..]));
    let kept = kept().into_iter().map(|pair| (pair, &[][..]));
    let lines = pairs.chain(kept);
    let lines = lines.flat_map(|(pair, places)| row(pair.as_flattened(), ENTRIES, NONE, places));
    lines.chain(others()).collect()
}

/// Makes ADD.
const fn add(rd: u8, rs1: u8, rs2: u8) -> Record {
    three(0x10, [rd, rs1, rs2])
}

/// Makes ADDI.
const fn addi(rd: u8, rs1: u8) -> Record {
    [0x20, rd, rs1, 0, 7]
}

/// Makes LDIL.
const fn ldil(rd: u8) -> Record {
    [0x30, rd, 0, 0, 7]
}

/// Makes LDIH.
const fn ldih(rd: u8) -> Record {
    [0x31, rd, 0, 0, 7]
}

/// A load, a store, a branch, MTSR, MFSR and a pair of short halfwords.
const LD: Record = [0x21, 1, 2, 0, 7];
const ST: Record = [0x24, 1, 2, 0, 0];
const BEQ: Record = [0x27, 1, 2, 0, 0];
const MTSR: Record = [0x32, 1, 0, 0, 0];
const MFSR: Record = [0x33, 1, 0, 0, 0];
const SHORT: Record = [0x61, 0, 0, 0, 0];

/// Neighbours that may trade places.
fn trading() -> Vec<[Record; 2]> {
    vec![
        [NOP, NOP],
        [NOP, add(1, 1, 1)],
        [addi(1, 1), NOP],
        [add(1, 2, 3), add(4, 5, 6)],
        [add(1, 2, 3), add(4, 2, 3)],
        [add(1, 31, 31), add(2, 31, 31)],
        [add(0, 1, 2), add(0, 3, 4)],
        [add(0, 1, 2), add(3, 0, 0)],
        [add(3, 0, 0), add(0, 0, 0)],
        [add(0, 0, 0), addi(0, 0)],
        [addi(1, 1), addi(2, 2)],
        [addi(1, 2), addi(3, 2)],
        [ldil(1), ldih(2)],
        [ldih(1), ldil(2)],
        [ldil(0), ldih(0)],
        [ldil(0), add(1, 0, 0)],
        [three(0x1b, [1, 2, 3]), three(0x1d, [4, 5, 6])],
        [three(0x1f, [4, 2, 3]), three(0x1c, [1, 2, 3])],
    ]
}

/// Neighbours that may not: the destination of one is a source or the destination of the other.
fn kept() -> Vec<[Record; 2]> {
    let by_registers = [
        [add(1, 2, 3), add(4, 1, 6)],
        [add(1, 2, 3), add(4, 5, 1)],
        [add(1, 4, 5), add(4, 2, 3)],
        [add(1, 4, 5), add(5, 2, 3)],
        [add(1, 2, 3), add(1, 4, 5)],
        [add(0, 1, 2), add(1, 0, 3)],
        [add(0, 2, 1), add(1, 0, 3)],
        [add(1, 0, 3), add(0, 1, 2)],
        [add(1, 0, 3), add(0, 2, 1)],
        [add(1, 1, 1), add(1, 1, 1)],
        [add(31, 2, 3), add(4, 31, 6)],
        [add(4, 31, 6), add(31, 2, 3)],
        [addi(1, 2), addi(3, 1)],
        [addi(3, 1), addi(1, 2)],
        [addi(1, 2), addi(1, 3)],
        [addi(1, 2), add(2, 3, 4)],
        [ldil(1), ldih(1)],
        [ldih(1), ldil(1)],
        [ldil(1), ldil(1)],
        [ldil(1), add(3, 1, 2)],
        [add(2, 1, 3), ldih(1)],
        [add(1, 2, 3), ldil(1)],
        [ldih(1), addi(1, 0)],
        [three(0x1b, [1, 2, 3]), three(0x1d, [4, 5, 1])],
    ];
    let still = [LD, ST, BEQ, MTSR, MFSR, SHORT];
    let beside = still.into_iter().flat_map(|other| {
        let moving = [NOP, add(4, 5, 6)];
        moving
            .into_iter()
            .flat_map(move |own| [[other, own], [own, other]])
    });
    by_registers.into_iter().chain(beside).collect()
}

/// Lists that are just long enough, and longer ones.
fn others() -> impl Iterator<Item = Expected> {
    let rows = [
        listed(&[], &[]),
        listed(&[NOP], &[]),
        listed(&[add(1, 1, 1)], &[]),
        listed(&[LD], &[]),
        listed(&[NOP; 2], &[0]),
        listed(&[add(1, 2, 3), add(4, 5, 6)], &[0]),
        listed(&[add(1, 2, 3), add(4, 1, 6)], &[]),
        listed(&[NOP; 3], &[0, 1]),
        listed(&[NOP, NOP, LD], &[0]),
        listed(&[LD, NOP, NOP], &[1]),
        listed(&[add(1, 2, 3), add(4, 5, 6), add(1, 4, 3)], &[0]),
        listed(&[add(1, 4, 3), add(4, 5, 6), add(1, 2, 3)], &[1]),
        row([NOP; 3].as_flattened(), 5, NONE, &[0, 1]),
        row([NOP; 1].as_flattened(), 1, NONE, &[]),
        row(&[], 2, NONE, &[]),
    ];
    rows.into_iter().flatten()
}
