//! The answers to the cases of the card log.

use super::Answers;
use crate::card_log::{self, HeldLog, Reading};
use crate::refusals::{LOG_FULL, NONE};
use crate::row::Row;
use crate::rows::{Input, LentLog, ReadLog, State, bytes_of, words_of};

impl Answers {
    /// Does one tick into a log: the code, the next free place and the state handed back.
    pub fn ticked_into(
        &mut self,
        state: &State,
        given: &Input,
        log: &mut [u8],
        free: u64,
    ) -> (u32, u64, State) {
        let (code, next, _) = self.ticked(state, given);
        if code != NONE {
            return (code, free, *state);
        }
        let events = card_log::of_tick(state, &given.answer);
        match card_log::append(&events, log, free) {
            None => (LOG_FULL, free, *state),
            Some(free) => (NONE, free, next),
        }
    }

    /// Answers a tick into a log.
    pub(super) fn logged(
        &mut self,
        state: &State,
        given: &Input,
        lent: &LentLog,
        out: &mut Vec<u32>,
    ) {
        let mut bytes = bytes_of(&lent.words);
        let log = &mut bytes[..lent.length as usize];
        let (code, free, next) = self.ticked_into(state, given, log, lent.free);
        code.put(out);
        free.put(out);
        words_of(&bytes).put(out);
        next.put(out);
    }

    /// Holds a log full of FF.
    pub(super) fn hold_log(&mut self, length: u32, free: u64) {
        self.log = HeldLog::lent(length, free, &self.held);
    }

    /// Does one tick on the state held into the log held.
    pub(super) fn log_tick(&mut self, given: &Input, out: &mut Vec<u32>) {
        let state = self.held;
        let mut bytes = std::mem::take(&mut self.log.bytes);
        let log = &mut bytes[..self.log.length as usize];
        let (code, free, next) = self.ticked_into(&state, given, log, self.log.free);
        if code == NONE {
            let events = card_log::of_tick(&state, &given.answer);
            self.log.written.events.extend(events);
        }
        self.log.bytes = bytes;
        self.log.free = free;
        self.held = next;
        code.put(out);
        free.put(out);
    }
}

/// Reads one event of a log that is handed in.
pub fn read(log: &ReadLog) -> Reading {
    let bytes = bytes_of(&log.words);
    card_log::read(&bytes[..log.length as usize], log.place)
}
