//! Plays of a sheet, one instruction after the other.

use super::Maker;
use super::run::REFUSED_LIMITS;
use crate::buffers::{ANSWERS, BLOCK_WORDS};
use crate::case::Case;
use crate::player::End;
use crate::rows::{Begin, Given};
use crate::runner::HIGHEST_LIMIT;
use crate::sheet::Record;

/// Instructions that are tried out before the load answers and the limit are chosen.
const TRIED: u32 = 400;

impl Maker {
    /// Appends the next play and the lines that it needs; a small one keeps to a line of each buffer.
    pub fn player(&mut self, small: bool, out: &mut Vec<Case>) {
        let is_a_string = !small && self.random.chance(8);
        let (sheet_length, begin) = if is_a_string {
            self.records_in_use = 0;
            (self.byte_string(), self.string_begin())
        } else {
            self.choose_records(small);
            (self.sheet_length(small), self.player_begin())
        };
        let restored = self.damage_the_sheet(small, sheet_length);
        let mut given = Given {
            limit: TRIED,
            sheet_length,
            answer_count: 0,
            table_length: if is_a_string {
                self.string_table_length()
            } else {
                self.table_length()
            },
        };
        given.answer_count = self.answers_around_the_used(small, &begin, given);
        given.limit = self.instruction_limit(&begin, given);
        self.send(&given, out);
        out.push(Case::Player(begin, given));
        self.restore(restored);
    }

    /// Makes the records of another sheet most often, now and then of a tiny one.
    fn choose_records(&mut self, small: bool) {
        match self.random.below(10) {
            0..2 => self.next_tiny_sheet(),
            2..8 => self.next_sheet(small),
            _ if self.records_in_use == 0 => self.next_sheet(small),
            _ => {}
        }
    }

    /// Makes a sheet of up to three records of any kind.
    fn next_tiny_sheet(&mut self) {
        let mut records = Vec::new();
        for _ in 0..self.random.below(4) {
            records.push(if self.random.chance(25) {
                Record::Pair([self.halfword(), self.halfword()])
            } else {
                Record::Normal(self.normal())
            });
        }
        self.want_records(&records);
        self.records_in_use = records.len() as u32;
        self.change_the_table();
    }

    /// Makes a start at the sheet, in user mode more often than for a run, with any words now and then.
    fn player_begin(&mut self) -> Begin {
        let mut begin = self.run_begin();
        begin.user |= self.random.chance(10);
        if self.random.chance(20) {
            begin.reg = self.register_values();
        }
        if self.random.chance(20) {
            begin.reg[0] = 0;
        }
        begin
    }

    /// Chooses how many load answers there are: as many as are used, one fewer, one more, or any count.
    fn answers_around_the_used(&mut self, small: bool, begin: &Begin, given: Given) -> u32 {
        let most = if small { BLOCK_WORDS } else { ANSWERS } as u32;
        let tried = Given {
            answer_count: most,
            ..given
        };
        let used = self.try_playing(begin, &tried).used;
        match self.random.below(8) {
            0 => 0,
            1 | 2 => used,
            3 | 4 => used.saturating_sub(1),
            5 => most.min(used + 1),
            _ => self.answer_count(small),
        }
    }

    /// Chooses the limit: at each bound, around the instructions that a play does, or the highest if it ends soon.
    fn instruction_limit(&mut self, begin: &Begin, given: Given) -> u32 {
        let played = self.try_playing(begin, &given);
        match self.random.below(100) {
            0..8 => self.random.below(4),
            8..20 => self.random.below(60),
            20..26 => self.random.pick(&REFUSED_LIMITS),
            _ if played.end == End::Spent && self.random.below(1_000) != 0 => {
                self.random.below(TRIED + 1)
            }
            26..40 => played.done.saturating_sub(1),
            40..56 => played.done,
            56..70 => played.done + 1,
            _ => HIGHEST_LIMIT,
        }
    }
}
