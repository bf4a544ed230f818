//! Latches as the original makes them, and with freely combined fields.

use super::Maker;
use crate::rows::{
    Decoded, ExMem, IdEx, IfId, Input, LOAD, MemWb, NORMAL, Offer, Raw, SHORT, State,
};

/// The widths within bounds.
const WIDTHS: [u32; 4] = [0, 1, 2, 4];

impl Maker {
    /// Makes a fetched latch, most often in the mode of its instruction.
    pub fn if_id(&mut self) -> IfId {
        let raw = self.raw();
        let is_short = matches!(raw, Raw::Short(_));
        IfId {
            valid: self.random.chance(88),
            pc: self.address(),
            mode: self.mostly(if is_short { SHORT } else { NORMAL }),
            raw,
        }
    }

    /// Gives a mode most often, else any.
    fn mostly(&mut self, own_mode: u32) -> u32 {
        if self.random.chance(80) {
            own_mode
        } else {
            self.mode()
        }
    }

    /// Makes a decoded latch over the state's registers.
    pub fn id_ex(&mut self, state: &State) -> IdEx {
        if self.random.chance(55) {
            return self.free_id_ex();
        }
        let fetched = self.if_id();
        let mut latch = self.original.decode(state, &fetched);
        latch.predicted_taken = self.random.chance(25);
        if self.random.chance(50) {
            latch.op_a = self.word();
            latch.op_b = self.word();
        }
        latch
    }

    /// Makes a decoded latch with freely combined fields.
    pub fn free_id_ex(&mut self) -> IdEx {
        let decoded = self.decoded();
        let own_mode = match decoded {
            Decoded::Normal(_) => NORMAL,
            Decoded::Short(_) => SHORT,
        };
        IdEx {
            valid: self.random.chance(92),
            pc: self.address(),
            mode: self.mostly(own_mode),
            decoded,
            predicted_taken: self.random.chance(20),
            src0: self.register(),
            src1: self.register(),
            n_srcs: self.random.below(3),
            dest: self.destination(),
            op_a: self.word(),
            op_b: self.word(),
            is_load: self.random.chance(25),
            is_store: self.random.chance(20),
            exception: self.exception(10),
        }
    }

    /// Makes an executed latch over the state's registers.
    pub fn ex_mem(&mut self, state: &State) -> ExMem {
        if self.random.chance(60) {
            return self.free_ex_mem();
        }
        let latch = self.id_ex(state);
        let special = self.special(true);
        self.original.execute(state, &latch, special).0
    }

    /// Makes an executed latch with freely combined fields.
    fn free_ex_mem(&mut self) -> ExMem {
        ExMem {
            valid: self.random.chance(88),
            pc: self.address(),
            mode: self.mode(),
            decoded: self.decoded(),
            dest: self.destination(),
            writeback: self.random.chance(70),
            is_load: self.random.chance(30),
            is_store: self.random.chance(35),
            alu_result: self.word(),
            store_value: self.word(),
            mem_addr: self.address(),
            mem_size: self.random.pick(&WIDTHS),
            is_mem_read: self.random.chance(50),
            branch_taken: self.random.chance(30),
            branch_target: self.address(),
            branch_new_mode: self.new_mode(30),
            halt: self.random.chance(8),
            iret: self.random.chance(5),
            cpuid: self.random.chance(15),
            exception: self.exception(8),
            mtsr: self.special_write(5),
        }
    }

    /// Makes the oldest latch over the state's registers.
    pub fn mem_wb(&mut self, state: &State) -> MemWb {
        if self.random.chance(70) {
            return self.free_mem_wb();
        }
        let mut before = *state;
        before.running = true;
        before.ex_mem = self.ex_mem(state);
        before.mem_wb.valid = false;
        let loads = self.original.asked(&before).request == LOAD;
        let given = Input {
            offer: Offer::Nothing,
            answer: self.answer(loads),
            special: self.special(true),
            ..Input::NOTHING
        };
        self.original.tick(&before, &given).0.mem_wb
    }

    /// Makes an oldest latch with freely combined fields.
    fn free_mem_wb(&mut self) -> MemWb {
        MemWb {
            valid: self.random.chance(88),
            pc: self.address(),
            mode: self.mode(),
            dest: self.destination(),
            writeback: self.random.chance(70),
            value: self.word(),
            halt: self.random.chance(7),
            iret: self.random.chance(2),
            cpuid: self.random.chance(15),
            branch_taken: self.random.chance(30),
            branch_target: self.address(),
            branch_new_mode: self.new_mode(25),
            exception: self.exception(2),
            mtsr: self.special_write(2),
        }
    }

    /// Makes a coded destination.
    fn destination(&mut self) -> u32 {
        if self.random.chance(80) {
            self.register() + 1
        } else {
            0
        }
    }

    /// Makes a coded exception so many times in a hundred.
    pub fn exception(&mut self, percent: u32) -> u32 {
        match self.random.below(3) {
            _ if !self.random.chance(percent) => 0,
            0 => 1,
            1 => 2,
            _ => 3 + self.random.pick(&[0, 1, 0x7fff, 0xffff]),
        }
    }

    /// Makes a coded change of mode so many times in a hundred.
    fn new_mode(&mut self, percent: u32) -> u32 {
        if self.random.chance(percent) {
            1 + self.mode()
        } else {
            0
        }
    }

    /// Makes a write to a special register so many times in a hundred.
    pub fn special_write(&mut self, percent: u32) -> [u32; 3] {
        if self.random.chance(percent) {
            [1, self.random.pick(&[0, 1, 0x10, 0xffff]), self.word()]
        } else {
            [0; 3]
        }
    }
}
