//! Makes cases that meet the places where a wrong machine would differ.

mod begin;
mod bounds;
mod counters;
mod damage;
mod fixed;
mod fuzz;
mod instruction;
mod latch;
mod list;
mod log_list;
mod logged;
mod meeting;
mod memory;
mod offer;
mod operands;
mod origin;
mod panel;
mod part;
mod plain;
mod player;
mod program;
mod reads;
mod records;
mod run;
mod sending;
mod special;
mod special_records;
mod state;
mod table;
mod trades;

use crate::answers::Answers;
use crate::buffers::Buffers;
use crate::case::{Case, Kind};
use crate::cpu_pipeline::harness::original::Original;
use crate::generator::Generator;
use crate::rows::{NORMAL, SHORT};
use fuzz::Background;

/// The feature word of the original.
pub const ORIGINAL_FEATURES: u32 = 0x7bf;

/// A source of cases; each case keeps to a few registers, words and addresses, so that they meet.
pub struct Maker {
    random: Generator,
    original: Original,
    answers: Answers,
    registers: [u32; 4],
    words: [u32; 3],
    base: u32,
    /// The buffers of the next run, and what the lines before have put into them.
    wanted: Buffers,
    held: Buffers,
    records_in_use: u32,
    background: Background,
    /// Cases made of the kinds that begin with fixed ones.
    arithmetic_made: u32,
    halfwords_made: u32,
    operands_made: u32,
}

impl Maker {
    /// Makes a source that gives the same cases for the same seed.
    pub fn new(seed: u64) -> Self {
        Self {
            random: Generator::new(seed),
            original: Original::fresh(),
            answers: Answers::new(),
            registers: [0; 4],
            words: [0; 3],
            base: 0,
            wanted: Buffers::new(),
            held: Buffers::new(),
            records_in_use: 0,
            background: Background::new(),
            arithmetic_made: 0,
            halfwords_made: 0,
            operands_made: 0,
        }
    }

    /// Appends the next case of a kind, or all the lines of the next list, run, play, preview or check for trades.
    pub fn next(&mut self, kind: Kind, out: &mut Vec<Case>) {
        self.choose_few();
        let case = match kind {
            Kind::Arithmetic => self.arithmetic(),
            Kind::Halfwords => self.halfword_to_decode(),
            Kind::Operands => self.operands(),
            Kind::Tick => self.tick(),
            Kind::Ask => Case::Ask(self.state()),
            Kind::Forwarded => self.forwarded(),
            Kind::Execute => self.execute(),
            Kind::Decode => self.decode(),
            Kind::Sources => Case::Sources(self.lone_if_id()),
            Kind::MulDiv => self.mul_div(),
            Kind::Hazard => self.hazard(),
            Kind::Retire => self.retire(),
            Kind::Start => Case::Start(self.begin()),
            Kind::Lists => return self.list(out),
            Kind::Runs => return self.run(false, out),
            Kind::Fuzz => return self.fuzz(out),
            Kind::Player => return self.player(false, out),
            Kind::Panel => return self.panel(false, out),
            Kind::Logged => self.logged(),
            Kind::Reads => self.reads(),
            Kind::LogLists => return self.log_list(out),
            Kind::Trades => return self.trades(false, out),
        };
        out.push(case);
    }

    /// Appends the same, but a run, play, preview or check for trades whose records and answers keep to a line of each
    /// buffer.
    pub fn next_small(&mut self, kind: Kind, out: &mut Vec<Case>) {
        let small: fn(&mut Self, bool, &mut Vec<Case>) = match kind {
            Kind::Runs => Self::run,
            Kind::Player => Self::player,
            Kind::Panel => Self::panel,
            Kind::Trades => Self::trades,
            _ => return self.next(kind, out),
        };
        self.choose_few();
        small(self, true, out);
    }

    /// Chooses the registers, words and addresses of the next case.
    fn choose_few(&mut self) {
        for place in 0..self.registers.len() {
            self.registers[place] = self.fresh_register();
        }
        for place in 0..self.words.len() {
            self.words[place] = self.random.limit_or_word();
        }
        if self.random.chance(15) {
            self.words = [0x8000_0000, 0xffff_ffff, self.random.below(2)];
        }
        self.base = match self.random.below(4) {
            0 => 0,
            1 => 0xffff_ff80,
            2 => 0xfffe_fff0,
            _ => self.random.limit_or_word(),
        };
    }

    /// Gives a register, the special ones more often.
    fn fresh_register(&mut self) -> u32 {
        match self.random.below(10) {
            0 => 0,
            1 => 1,
            2 => 2,
            3 => 31,
            4 => self.random.pick(&[3, 14, 15, 16, 30]),
            5..8 => self.random.below(15),
            _ => self.random.below(32),
        }
    }

    /// Gives one of the case's registers, now and then another.
    fn register(&mut self) -> u32 {
        if self.random.chance(92) {
            let registers = self.registers;
            self.random.pick(&registers)
        } else {
            self.random.below(32)
        }
    }

    /// Gives one of the case's words or another.
    fn word(&mut self) -> u32 {
        if self.random.chance(35) {
            let words = self.words;
            self.random.pick(&words)
        } else {
            self.random.limit_or_word()
        }
    }

    /// Gives an address near the case's others or any.
    fn address(&mut self) -> u32 {
        match self.random.below(10) {
            0..6 => self.base.wrapping_add(4 * self.random.below(16)),
            6 | 7 => self.base.wrapping_add(self.random.below(64)),
            8 => 0u32.wrapping_sub(self.random.below(9)),
            _ => self.random.limit_or_word(),
        }
    }

    /// Gives a mode.
    fn mode(&mut self) -> u32 {
        self.random.pick(&[NORMAL, SHORT])
    }

    /// Gives a feature word, the original's often enough.
    fn features(&mut self) -> u32 {
        if self.random.chance(30) {
            ORIGINAL_FEATURES
        } else {
            self.word()
        }
    }
}
