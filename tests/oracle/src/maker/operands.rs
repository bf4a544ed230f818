//! Pairs of operands at which arithmetic goes wrong first.

use super::Maker;
use crate::cpu_pipeline::harness::Numbers;
use crate::rows::{IdEx, State};

/// The least word by -1, zero, signs that differ, and shifts by 31 and more; the first come twice as often.
const PAIRS: [[u32; 2]; 10] = [
    [0x8000_0000, 0xffff_ffff],
    [0x1234_5678, 0],
    [0xffff_fff9, 2],
    [0x8000_0000, 0x8000_0000],
    [0xffff_ffff, 0xffff_ffff],
    [7, 0xffff_fffe],
    [0xffff_fff9, 0xffff_fffe],
    [0x8000_0001, 0x21],
    [0x8000_0000, 0x1f],
    [1, 0x8000_0000],
];

/// Positions in the enum of ADDI, DIV, LDIL and LDIH.
const ADDI: u32 = 0x04;
const DIV: u32 = 0x1c;
const LDIL: u32 = 0x24;
const LDIH: u32 = 0x25;

impl Maker {
    /// Makes instructions that divide the least word by -1.
    pub fn hard_divide(&mut self) -> Vec<Numbers> {
        let (least, result) = (3 + self.random.below(14), self.register());
        let minus_one = 17 + self.random.below(15);
        let of = |variant, fields| Numbers { variant, fields };
        vec![
            of(LDIL, [least, 0, 0]),
            of(LDIH, [least, 0x8000, 0]),
            of(ADDI, [minus_one, 0, u32::MAX]),
            of(DIV, [result, least, minus_one]),
        ]
    }

    /// Lets a latch read such a pair from two registers that no older latch writes.
    pub fn give_hard_operands(&mut self, state: &mut State, latch: &mut IdEx) {
        let place = self.random.below(PAIRS.len() as u32 + 3);
        let [a, b] = PAIRS[place as usize % PAIRS.len()];
        latch.src0 = 3 + self.random.below(14);
        latch.src1 = 17 + self.random.below(15);
        latch.n_srcs = 2;
        state.reg[latch.src0 as usize] = a;
        state.reg[latch.src1 as usize] = b;
        for dest in [&mut state.ex_mem.dest, &mut state.mem_wb.dest] {
            if *dest > 3 {
                *dest = 0;
            }
        }
    }
}
