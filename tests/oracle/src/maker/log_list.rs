//! Lists of ticks that keep a log, and what is read of it.

use super::Maker;
use super::program::Program;
use crate::buffers::BLOCK_BYTES;
use crate::card_log::{self, HELD_BYTES, HeldLog};
use crate::case::Case;
use crate::refusals::{self, LOG_FULL, NONE};
use crate::rows::{Input, State};

/// Ticks that are tried out before the length of the log is chosen.
const TRIED: u32 = 60;
/// Ticks with one log at most, those after the machine has stopped for good, and those refused with 14.
const LONGEST: u32 = 200;
const AFTER_THE_END: u32 = 4;
const FULL: u32 = 3;

impl Maker {
    /// Appends a start, then a log with the ticks that keep it and what is read of it, now and then another one.
    pub fn log_list(&mut self, out: &mut Vec<Case>) {
        let program = self.program();
        let begin = self.list_begin();
        out.push(Case::ListStart(begin));
        let mut state = self.original.start(&begin);
        loop {
            state = self.keep_a_log(&program, state, out);
            if !state.running || !self.random.chance(30) {
                break;
            }
        }
    }

    /// Appends a log, ticks that keep it, some of them refused, the state at the end, the part of the log that was
    /// written, and all that is read of it.
    fn keep_a_log(&mut self, program: &Program, mut state: State, out: &mut Vec<Case>) -> State {
        let start = self.log_start();
        let needed = self.needed(program, &state);
        let length = self.log_length(start, needed);
        let mut log = HeldLog::lent(length, start, &state);
        out.push(Case::HoldLog(length, start));
        self.log_ticks(program, &mut state, &mut log, out);
        out.push(Case::ListShow);
        show(&log, out);
        self.read_back(&log, out);
        state
    }

    /// Chooses the first free place: the start of the log most often.
    fn log_start(&mut self) -> u64 {
        match self.random.below(20) {
            0 => u64::from(self.random.below(300)),
            1 => HELD_BYTES as u64 - u64::from(self.random.below(200)),
            2 => u64::from(self.random.pick(&[1, 255, 256, 3_840, 4_095, 4_096, 4_097])),
            3 if self.random.chance(20) => 1 << 32,
            _ => 0,
        }
    }

    /// Says how many bytes the first ticks of a list write.
    fn needed(&mut self, program: &Program, state: &State) -> u64 {
        let (mut state, mut bytes) = (*state, 0);
        for _ in 0..TRIED {
            let given = self.fitting(program, &state);
            if refusals::standing(&state) != NONE {
                break;
            }
            let events = card_log::of_tick(&state, &given.answer);
            bytes += card_log::bytes(&events).len() as u64;
            state = self.answers.ticked(&state, &given).1;
        }
        bytes
    }

    /// Chooses the length of the log: enough, around what the first ticks need, or less.
    fn log_length(&mut self, start: u64, needed: u64) -> u32 {
        let end = start.saturating_add(needed);
        let length = match self.random.below(10) {
            0..4 => HELD_BYTES as u64,
            4..7 => (end + u64::from(self.random.below(6))).saturating_sub(4),
            7 | 8 => start.saturating_add(u64::from(self.random.below(needed as u32 + 1))),
            _ => (start + u64::from(self.random.below(12))).saturating_sub(4),
        };
        length.min(HELD_BYTES as u64) as u32
    }

    /// Appends the ticks, up to a few refused with 14.
    fn log_ticks(
        &mut self,
        program: &Program,
        state: &mut State,
        log: &mut HeldLog,
        out: &mut Vec<Case>,
    ) {
        let (mut left, mut full) = (self.length(), 0);
        while left > 0 && full < FULL {
            let given = self.given(program, state);
            out.push(Case::LogTick(given));
            let code = self.log_tick(state, &given, log);
            full += u32::from(code == LOG_FULL);
            let stopped = !state.running || refusals::standing(state) != NONE;
            left = (left - 1).min(if stopped { AFTER_THE_END } else { LONGEST });
        }
    }

    /// Does one tick into the log, and gives its code.
    fn log_tick(&mut self, state: &mut State, given: &Input, log: &mut HeldLog) -> u32 {
        let lent = &mut log.bytes[..log.length as usize];
        let (code, free, next) = self.answers.ticked_into(state, given, lent, log.free);
        (log.free, *state) = (free, next);
        code
    }

    /// Appends reading place after place until the end or a refusal, most often of just what was written.
    fn read_back(&mut self, log: &HeldLog, out: &mut Vec<Case>) {
        let end = log.free.min(HELD_BYTES as u64) as u32;
        let length = match self.random.below(10) {
            0 => end + 1 + self.random.below(12),
            1 => end.saturating_sub(1 + self.random.below(9)),
            2 => log.length,
            _ => end,
        };
        let length = length.min(HELD_BYTES as u32);
        let mut place = log.written.start;
        loop {
            out.push(Case::LogRead(length, place));
            let reading = log.read(length, place);
            if reading.event.is_none() {
                break;
            }
            place = reading.next;
        }
    }
}

/// Appends showing the part of the log that was written and what follows it.
fn show(log: &HeldLog, out: &mut Vec<Case>) {
    let last = HELD_BYTES - BLOCK_BYTES;
    let mut at = log.written.start.min(last as u64) as usize;
    out.push(Case::LogShow(at as u32));
    while at < last && (at + BLOCK_BYTES) as u64 <= log.free {
        at = (at + BLOCK_BYTES).min(last);
        out.push(Case::LogShow(at as u32));
    }
}
