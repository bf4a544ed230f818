//! States in which two rare things meet in one tick.

use super::Maker;
use super::instruction::{ARITHMETIC, BRANCHES, JUMPS, MUL_DIV, SPECIAL};
use crate::cpu_pipeline::harness::{Numbers, short_numbers_of};
use crate::rows::{Decoded, NORMAL, Raw, SHORT, State};

impl Maker {
    /// Bends a state so that something rare happens in its tick.
    pub fn let_meet(&mut self, state: &mut State) {
        self.let_run(state);
        match self.random.below(23) {
            0 | 1 => self.finish_a_wait(state),
            2 => self.begin_a_wait(state),
            3 => self.go_on_waiting(state),
            4 | 5 => self.use_a_load(state),
            6 => self.use_a_load_that_redirects(state),
            7 => self.use_a_load_that_waits(state),
            8 => self.predict(state),
            9 => self.predict_while_redirecting(state),
            10 => self.check_a_guess(state),
            11 => self.halt(state),
            12 => self.forward_twice(state),
            13 => self.change_mode(state),
            14 => self.identify(state),
            15 => self.empty_latches(state),
            16 => self.do_something_special(state),
            17 | 18 => self.compute(state),
            19..22 => self.read_a_special_register(state),
            _ => self.touch_r0(state),
        }
    }

    /// Lets the machine run and retire, with no wait left.
    fn let_run(&mut self, state: &mut State) {
        if self.random.chance(90) {
            state.running = true;
            state.mem_wb.exception = 0;
            state.mem_wb.mtsr = [0; 3];
            state.mem_wb.iret = false;
            state.mem_wb.halt &= self.random.chance(40);
            state.ex_armed &= state.ex_cycles_left <= 1;
        }
    }

    /// Puts a decoded Normal instruction into ID/EX, with its own operands.
    pub fn execute_normal(&mut self, state: &mut State, instruction: Numbers) {
        let mut fetched = state.if_id;
        fetched.raw = Raw::Normal(instruction);
        fetched.mode = NORMAL;
        state.id_ex = self.original.decode(state, &fetched);
        state.id_ex.predicted_taken = self.random.chance(25);
    }

    /// Puts a multiply or divide into ID/EX.
    fn execute_mul_div(&mut self, state: &mut State) {
        let variant = self.random.pick(&MUL_DIV);
        let instruction = self.normal_of(variant);
        self.execute_normal(state, instruction);
    }

    /// Puts a jump or a branch of either mode into ID/EX.
    fn execute_a_jump(&mut self, state: &mut State) {
        match self.random.below(4) {
            0 => {
                let variant = self.random.pick(&BRANCHES);
                let instruction = self.normal_of(variant);
                self.execute_normal(state, instruction);
            }
            1 => {
                let nibble = self.random.pick(&[0x5, 0x6, 0x7, 0x8, 0xf]);
                self.execute_short(state, nibble);
            }
            _ => {
                let variant = self.random.pick(&JUMPS);
                let instruction = self.normal_of(variant);
                self.execute_normal(state, instruction);
            }
        }
        if self.random.chance(15) {
            state.id_ex.mode ^= 1;
        }
    }

    /// Puts a short instruction with this top nibble into ID/EX.
    fn execute_short(&mut self, state: &mut State, nibble: u32) {
        let mut fetched = state.if_id;
        fetched.raw = Raw::Short((nibble << 12) | (self.halfword() & 0xfff));
        fetched.mode = SHORT;
        state.id_ex = self.original.decode(state, &fetched);
        state.id_ex.predicted_taken = self.random.chance(25);
    }

    /// Lets a multiply or divide find its wait just done, or nearly so.
    fn finish_a_wait(&mut self, state: &mut State) {
        self.execute_mul_div(state);
        state.ex_armed = true;
        state.ex_cycles_left = self.random.pick(&[0, 1, 1, 1, 2]);
        if self.random.chance(50) {
            let mut latch = state.id_ex;
            self.give_hard_operands(state, &mut latch);
            state.id_ex = latch;
        }
    }

    /// Lets a multiply or divide begin its wait.
    pub fn begin_a_wait(&mut self, state: &mut State) {
        self.execute_mul_div(state);
        state.ex_armed = false;
        state.ex_cycles_left = self.random.pick(&[0, 0, 1, 2, 15]);
    }

    /// Lets a wait go on, whatever ID/EX holds.
    pub fn go_on_waiting(&mut self, state: &mut State) {
        state.ex_armed = true;
        state.ex_cycles_left = 2 + self.random.below(14);
        if self.random.chance(30) {
            state.mem_wb.valid = true;
            state.mem_wb.halt = true;
        }
    }

    /// Puts a load into ID/EX whose destination IF/ID names, or nearly so.
    fn use_a_load(&mut self, state: &mut State) {
        let variant = self.random.pick(&[0x01, 0x20, 0x21]);
        let load = self.normal_of(variant);
        self.execute_normal(state, load);
        if self.random.chance(20) {
            self.execute_short(state, 0x3);
        }
        self.name_in_if_id(state);
    }

    /// Makes ID/EX a load whose destination is one of IF/ID's sources.
    pub fn name_in_if_id(&mut self, state: &mut State) {
        state.if_id.valid = self.random.chance(95);
        state.if_id.raw = self.raw();
        if self.random.chance(40) {
            let variant = self.random.pick(&[0x24, 0x25, 0x29, 0x2a, 0x02]);
            state.if_id.raw = Raw::Normal(self.normal_of(variant));
        }
        let sources = self.original.sources(&state.if_id);
        state.id_ex.valid = self.random.chance(88);
        state.id_ex.is_load = true;
        if self.random.chance(85) {
            state.id_ex.dest = self.random.pick(&sources) + 1;
        }
    }

    /// Lets a load-use wait meet a redirect.
    fn use_a_load_that_redirects(&mut self, state: &mut State) {
        self.execute_a_jump(state);
        self.name_in_if_id(state);
    }

    /// Lets a load-use wait meet a multiply or divide that has not begun its wait.
    fn use_a_load_that_waits(&mut self, state: &mut State) {
        self.execute_mul_div(state);
        self.name_in_if_id(state);
        state.ex_armed = false;
    }

    /// Puts a conditional branch into IF/ID, most often a backward one, behind something harmless.
    fn predict(&mut self, state: &mut State) {
        self.fetch_a_branch(state);
        let harmless = self.random.pick(&[0x00, 0x03, 0x04, 0x02, 0x24]);
        let instruction = self.normal_of(harmless);
        self.execute_normal(state, instruction);
        state.id_ex.predicted_taken = self.random.chance(5);
    }

    /// Puts a conditional branch of either mode into a valid IF/ID.
    fn fetch_a_branch(&mut self, state: &mut State) {
        state.if_id.valid = true;
        if self.random.chance(60) {
            let variant = self.random.pick(&BRANCHES);
            let mut branch = self.normal_of(variant);
            if self.random.chance(60) {
                branch.fields[2] |= 0xffff_8000;
            }
            state.if_id.raw = Raw::Normal(branch);
            state.if_id.mode = NORMAL;
        } else {
            let nibble = self.random.pick(&[0x5, 0x6]);
            let sign = self.random.pick(&[0, 0x80, 0x80]);
            state.if_id.raw = Raw::Short((nibble << 12) | (self.halfword() & 0xf7f) | sign);
            state.if_id.mode = SHORT;
        }
        if self.random.chance(20) {
            state.if_id.mode ^= 1;
        }
        if self.random.chance(10) {
            let jump = self.normal_of(0x09);
            state.if_id.raw = Raw::Normal(jump);
        }
    }

    /// Lets a prediction meet a redirect.
    fn predict_while_redirecting(&mut self, state: &mut State) {
        self.execute_a_jump(state);
        self.fetch_a_branch(state);
    }

    /// Lets execute judge a guess, right or wrong, of the latch's own mode or the other.
    fn check_a_guess(&mut self, state: &mut State) {
        if self.random.chance(60) {
            let variant = self.random.pick(&BRANCHES);
            let mut branch = self.normal_of(variant);
            if self.random.chance(40) {
                branch.fields[1] = branch.fields[0];
            }
            if self.random.chance(25) {
                branch.fields[2] = 0;
            }
            self.execute_normal(state, branch);
        } else {
            let nibble = self.random.pick(&[0x5, 0x6]);
            self.execute_short(state, nibble);
        }
        state.id_ex.predicted_taken = self.random.chance(60);
        if self.random.chance(30) {
            state.id_ex.mode ^= 1;
        }
    }

    /// Retires a HALT in front of anything.
    pub fn halt(&mut self, state: &mut State) {
        state.mem_wb.valid = true;
        state.mem_wb.halt = true;
        if self.random.chance(30) {
            state.ex_armed = true;
            state.ex_cycles_left = self.random.below(16);
        }
    }

    /// Lets both older latches write what ID/EX and IF/ID read.
    fn forward_twice(&mut self, state: &mut State) {
        let register = self.register();
        state.ex_mem.valid = self.random.chance(85);
        state.mem_wb.valid = self.random.chance(85);
        state.ex_mem.dest = register + 1;
        state.mem_wb.dest = register + 1;
        state.ex_mem.writeback = self.random.chance(85);
        state.mem_wb.writeback = self.random.chance(90);
        state.ex_mem.is_load = self.random.chance(30);
        let other = self.register();
        self.execute_a_reader(state, [register, other]);
    }

    /// Lets ID/EX read these registers, most often with a result that shows it.
    pub fn execute_a_reader(&mut self, state: &mut State, registers: [u32; 2]) {
        if self.random.chance(60) {
            let variant = self.random.pick(&[0x02, 0x03, 0x05, 0x07, 0x0b]);
            let instruction = self.normal_of(variant);
            self.execute_normal(state, instruction);
        }
        state.id_ex.valid = true;
        state.id_ex.src0 = self.random.pick(&registers);
        state.id_ex.src1 = self.random.pick(&registers);
    }

    /// Retires a change of mode.
    fn change_mode(&mut self, state: &mut State) {
        state.mem_wb.valid = true;
        state.mem_wb.branch_new_mode = 2 - state.fetch_mode;
        if self.random.chance(30) {
            self.fetch_a_branch(state);
        }
    }

    /// Puts CPUID into one or both of the older latches, in front of users of R1 and R2.
    pub fn identify(&mut self, state: &mut State) {
        self.registers[..2].copy_from_slice(&[1, 2]);
        (state.ex_mem.cpuid, state.mem_wb.cpuid) =
            [(true, false), (false, true), (true, true)][self.random.below(3) as usize];
        state.ex_mem.valid = self.random.chance(85);
        state.mem_wb.valid = self.random.chance(85);
        match self.random.below(4) {
            0 | 1 => state.ex_mem.writeback = false,
            2 => {
                state.ex_mem.dest = self.random.pick(&[2, 3]);
                (state.ex_mem.writeback, state.ex_mem.is_load) = (true, self.random.chance(30));
            }
            _ => {}
        }
        self.execute_a_reader(state, [1, 2]);
        if self.random.chance(50) {
            state.if_id.raw = Raw::Normal(self.normal());
        }
        if self.random.chance(40) {
            state.mem_wb.dest = self.random.pick(&[2, 3]);
        }
    }

    /// Empties the latches, all four most often.
    pub fn empty_latches(&mut self, state: &mut State) {
        state.if_id.valid = self.random.chance(10);
        state.id_ex.valid = self.random.chance(10);
        state.ex_mem.valid = self.random.chance(10);
        state.mem_wb.valid = self.random.chance(10);
        state.running = self.random.chance(80);
    }

    /// Puts an instruction that user mode may not do, or that raises an exception, into ID/EX.
    fn do_something_special(&mut self, state: &mut State) {
        state.user = self.random.chance(70);
        let variant = self.random.pick(&SPECIAL);
        let instruction = self.normal_of(variant);
        if self.random.chance(50) {
            self.execute_normal(state, instruction);
        } else {
            state.id_ex.valid = true;
            state.id_ex.decoded = match self.random.below(6) {
                0 => Decoded::Short(short_numbers_of(0xa000 + self.random.below(0x5000) as u16)),
                1 => Decoded::Short(short_numbers_of(0xf000)),
                _ => Decoded::Normal(instruction),
            };
        }
        if self.random.chance(25) {
            state.id_ex.exception = self.exception(100);
        }
        state.id_ex.is_load |= self.random.chance(20);
        state.id_ex.is_store |= self.random.chance(30);
    }

    /// Lets ID/EX compute with hard operands, a multiply or divide with its wait just done.
    fn compute(&mut self, state: &mut State) {
        let variant = self.random.pick(&ARITHMETIC);
        let instruction = self.normal_of(variant);
        self.execute_normal(state, instruction);
        let mut latch = state.id_ex;
        self.give_hard_operands(state, &mut latch);
        latch.predicted_taken = false;
        state.id_ex = latch;
        state.ex_armed = true;
        state.ex_cycles_left = 1;
    }

    /// Lets R0 be written, read and waited for.
    fn touch_r0(&mut self, state: &mut State) {
        self.registers[..2].copy_from_slice(&[0, 0]);
        state.ex_mem.dest = self.random.pick(&[0, 1, 1]);
        state.mem_wb.dest = self.random.pick(&[0, 1, 1]);
        state.id_ex.src0 = 0;
        if self.random.chance(40) {
            self.use_a_load(state);
            state.id_ex.dest = 1;
        }
    }
}
