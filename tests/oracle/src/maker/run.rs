//! Runs of small sheets, now and then of long ones.

use super::Maker;
use crate::case::Case;
use crate::rows::{Begin, Given, NORMAL, SHORT, State};
use crate::runner::{End, HIGHEST_LIMIT};
use crate::sheet::{LONGEST, PAIR, RECORD_ADDRESSES, RECORD_BYTES};

/// Records whose bytes fit one line, and records in the longest sheet.
pub const IN_A_LINE: u32 = 51;
pub const MOST: u32 = (LONGEST / RECORD_BYTES) as u32;
/// Ticks that are tried out before a limit is chosen.
const TRIED: u32 = 400;
/// Lengths around each limit.
const LENGTHS: [u32; 16] = [
    0, 1, 4, 5, 6, 7, 10, 20_474, 20_475, 20_476, 20_479, 20_480, 20_480, 20_481, 20_485, 20_736,
];
/// Limits that are refused.
pub const REFUSED_LIMITS: [u32; 4] = [1_000_001, 1_000_001, 0x8000_0000, 0xffff_ffff];

/// Places of damaged records and what these were.
type Restored = Vec<(usize, [u8; RECORD_BYTES])>;

impl Maker {
    /// Appends the next run and the lines that it needs; a small one keeps to a line of each buffer.
    pub fn run(&mut self, small: bool, out: &mut Vec<Case>) {
        self.change_the_sheet(small);
        let sheet_length = self.sheet_length(small);
        let (state, given) = self.run_over(small, sheet_length, Self::tick_limit, out);
        out.push(Case::Run(state, given));
    }

    /// Makes another sheet most often.
    pub fn change_the_sheet(&mut self, small: bool) {
        if self.records_in_use == 0 || self.random.chance(75) {
            self.next_sheet(small);
        }
    }

    /// Appends the lines that a run over so many bytes of the sheet needs, and gives what it is given.
    pub fn run_over(
        &mut self,
        small: bool,
        sheet_length: u32,
        limit: fn(&mut Self, &State, Given) -> u32,
        out: &mut Vec<Case>,
    ) -> (State, Given) {
        let answer_count = self.answer_count(small);
        let restored = self.damage_the_sheet(small, sheet_length);
        let state = self.run_state(small);
        let mut given = Given {
            limit: 0,
            sheet_length,
            answer_count,
            table_length: self.table_length(),
        };
        given.limit = limit(self, &state, given);
        self.send(&given, out);
        self.restore(restored);
        (state, given)
    }

    /// Makes the records of another sheet, other load answers and other words of special registers.
    pub fn next_sheet(&mut self, small: bool) {
        let count = match self.random.below(400) {
            0 if !small => MOST,
            1..8 if !small => self.random.below(400),
            0..60 => 1 + self.random.below(8),
            60..120 => 40 + self.random.below(IN_A_LINE - 39),
            _ => 4 + self.random.below(36),
        };
        let records = self.records(count as usize);
        self.want_records(&records);
        self.records_in_use = count;
        let block = if small || self.random.chance(90) {
            0
        } else {
            64 * self.random.below(64)
        };
        for place in block..block + 4 + self.random.below(60) {
            self.wanted.answers[place as usize] = self.answer_word();
        }
        self.change_the_table();
    }

    /// Makes a load answer or a word of a special register: small ones end loops, and some are addresses of records.
    pub fn answer_word(&mut self) -> u32 {
        match self.random.below(10) {
            0..4 => self.random.below(12),
            4..6 => RECORD_ADDRESSES * self.random.below(self.records_in_use + 1),
            _ => self.word(),
        }
    }

    /// Chooses the length of the sheet, most often that of its records.
    pub fn sheet_length(&mut self, small: bool) -> u32 {
        let bytes = RECORD_BYTES as u32;
        match self.random.below(100) {
            0..4 => self.random.pick(&LENGTHS),
            4 if !small => bytes * self.random.below(MOST + 1),
            5 => self.random.below(self.records_in_use * bytes + 1),
            _ => self.records_in_use * bytes,
        }
    }

    /// Chooses how many load answers there are, often too few.
    pub fn answer_count(&mut self, small: bool) -> u32 {
        match self.random.below(10) {
            0 | 1 => 0,
            2..5 => 1 + self.random.below(6),
            5..8 => self.random.below(65),
            8 if !small => self.random.pick(&[63, 64, 65, 4_095, 4_096, 4_096]),
            _ => 64,
        }
    }

    /// Damages one or two records now and then, of small runs more often, and gives what they were.
    pub fn damage_the_sheet(&mut self, small: bool, sheet_length: u32) -> Restored {
        let count = sheet_length.min(LONGEST as u32) / RECORD_BYTES as u32;
        let times = match self.random.below(if small { 50 } else { 100 }) {
            _ if count == 0 => 0,
            0..9 => 1,
            9..14 => 2,
            _ => 0,
        };
        let mut restored = Vec::new();
        for _ in 0..times {
            let place = self.random.below(count) as usize;
            let mut bytes = *self.wanted_record(place);
            restored.insert(0, (place, bytes));
            self.damage(&mut bytes);
            *self.wanted_record(place) = bytes;
        }
        restored
    }

    /// Writes records as they were.
    pub fn restore(&mut self, restored: Restored) {
        for (place, bytes) in restored {
            *self.wanted_record(place) = bytes;
        }
    }

    /// Makes the state to begin at: a fresh one most often, for small runs less often.
    fn run_state(&mut self, small: bool) -> State {
        let begin = self.run_begin();
        let mut state = self.original.start(&begin);
        match self.random.below(if small { 50 } else { 100 }) {
            0..3 => {
                state = self.state();
                (state.fetch_pc, state.fetch_mode) = (begin.pc, begin.mode);
            }
            3..7 => self.go_to_a_bound(&mut state),
            7..11 => self.bring_counters_near_the_top(&mut state),
            11..13 => state.running = false,
            13..15 => self.load_behind_what_never_retires(&mut state),
            15..20 => self.wait_before_a_run(&mut state),
            _ => {}
        }
        state
    }

    /// Makes a start at the sheet, often with an address of it in a register.
    pub fn run_begin(&mut self) -> Begin {
        let mut begin = self.list_begin();
        begin.user = self.random.chance(10);
        (begin.pc, begin.mode) = self.start_place();
        if self.random.chance(40) {
            let register = self.register() as usize;
            begin.reg[register] = self.start_place().0;
        }
        begin
    }

    /// Chooses where to begin: most often at a record in its mode.
    fn start_place(&mut self) -> (u32, u32) {
        let count = self.records_in_use.max(1);
        let record = match self.random.below(20) {
            0..16 => 0,
            16..19 => self.random.below(count),
            _ => count - 1,
        };
        let address = RECORD_ADDRESSES * record;
        let mode = match self.wanted_record(record as usize)[0] {
            PAIR => SHORT,
            _ => NORMAL,
        };
        match self.random.below(48) {
            0 => (address, mode ^ 1),
            1 => (address + self.random.below(4), mode),
            2 => (RECORD_ADDRESSES * count + self.random.below(9), self.mode()),
            3 => (self.address(), self.mode()),
            4..12 if mode == SHORT => (address + 2, mode),
            _ => (address, mode),
        }
    }

    /// Lets a load stand behind what never retires.
    pub fn load_behind_what_never_retires(&mut self, state: &mut State) {
        state.mem_wb.valid = true;
        match self.random.below(3) {
            0 => state.mem_wb.exception = self.exception(100),
            1 => state.mem_wb.mtsr = self.special_write(100),
            _ => state.mem_wb.iret = true,
        }
        state.ex_mem.valid = true;
        state.ex_mem.is_load = true;
        state.ex_mem.mem_size = self.random.pick(&[1, 2, 4]);
        if self.random.chance(30) {
            self.fill_one(state);
        }
    }

    /// Chooses the tick limit.
    pub fn tick_limit(&mut self, state: &State, given: Given) -> u32 {
        match self.random.below(100) {
            _ if state.wait_left > 0 && self.random.chance(40) => self.limit_around_the_wait(state),
            0..8 => self.random.pick(&[0, 1, 4, 5]),
            8..24 => self.random.below(60),
            24..62 => 20 + self.random.below(TRIED - 20),
            62..94 => self.limit_near_the_end(state, given),
            94 => 1_000 + self.random.below(4_000),
            _ => self.random.pick(&REFUSED_LIMITS),
        }
    }

    /// Chooses a limit around the ticks that a run takes, or the highest if it ends soon.
    fn limit_near_the_end(&mut self, state: &State, given: Given) -> u32 {
        let tried = Given {
            limit: TRIED,
            ..given
        };
        let run = self.try_out(state, &tried);
        match self.random.below(5) {
            _ if run.end == End::Spent && self.random.below(500) != 0 => TRIED,
            0 => run.ticks.saturating_sub(1),
            1 | 2 => run.ticks,
            3 => run.ticks + 1,
            _ => HIGHEST_LIMIT,
        }
    }
}
