//! The lines of a list of ticks that keep a log, and what they are answered.

use super::Expected;
use crate::answers::Answers;
use crate::buffers::{BLOCK_BYTES, Block};
use crate::card_log::{Event, bytes, event_numbers};
use crate::case::Case;
use crate::cpu_pipeline::harness::original::Original;
use crate::offers::given;
use crate::refusals::{LOG_FULL, NONE};
use crate::row::Row;
use crate::rows::{Begin, Offer};
use crate::tickrun::BEGIN;

/// The feature word of the rows.
pub const FEATURES: u32 = 7;

/// A row: the instructions from address 0 on, the word of each load, the bytes lent, the first free place, and what
/// each tick logs, nothing where it is refused with 14.
pub struct Listed {
    pub offers: &'static [Offer],
    pub loaded: u32,
    pub length: u32,
    pub free: u64,
    pub ticks: &'static [Option<&'static [Event]>],
}

impl Listed {
    /// Gives the lines: a start, a log, the ticks, what the log then holds, and what is read of it.
    pub fn lines(&self) -> Vec<Expected> {
        let mut lines = self.ticked();
        let logged: Vec<Event> = self
            .ticks
            .iter()
            .flatten()
            .copied()
            .flatten()
            .copied()
            .collect();
        lines.push(self.shown(&logged));
        lines.extend(self.read(&logged));
        lines
    }

    /// Gives the start, the log and the ticks.
    fn ticked(&self) -> Vec<Expected> {
        let begin = Begin {
            features: FEATURES,
            ..BEGIN
        };
        let mut original = Original::fresh();
        let (mut state, mut answers) = (original.start(&begin), Answers::new());
        let mut lines = vec![
            without_result(Case::ListStart(begin)),
            without_result(Case::HoldLog(self.length, self.free)),
        ];
        let mut free = self.free;
        for tick in self.ticks {
            let given = given(self.offers, self.loaded, &original.asked(&state));
            let code = if tick.is_some() { NONE } else { LOG_FULL };
            free += bytes(tick.unwrap_or_default()).len() as u64;
            if code == NONE {
                state = answers.ticked(&state, &given).1;
            }
            lines.push(with_result(Case::LogTick(given), &[code], free));
        }
        lines
    }

    /// Gives the line that shows the log: what was logged, all else FF.
    fn shown(&self, logged: &[Event]) -> Expected {
        let mut log = [0xff; BLOCK_BYTES];
        let entries = bytes(logged);
        log[self.free.min(64) as usize..][..entries.len()].copy_from_slice(&entries);
        let (words, _) = log.as_chunks();
        let shown: Block = std::array::from_fn(|place| u32::from_be_bytes(words[place]));
        Expected {
            case: Case::LogShow(0),
            begins: shown.to_vec(),
        }
    }

    /// Gives the lines that read the log from its start, event after event to the end.
    fn read(&self, logged: &[Event]) -> Vec<Expected> {
        let end = self.free + bytes(logged).len() as u64;
        let mut place = self.free;
        let events = logged.iter().map(|event| Some(*event)).chain([None]);
        events
            .map(|event| {
                let case = Case::LogRead(end.min(64) as u32, place);
                place += event.map_or(0, |event| bytes(&[event]).len() as u64);
                let [command, first, second, third] = event_numbers(event);
                with_result(case, &[NONE, command, first, second, third], place)
            })
            .collect()
    }
}

/// Gives a line that has no result.
fn without_result(case: Case) -> Expected {
    let begins = Vec::new();
    Expected { case, begins }
}

/// Gives a line with some numbers and a place.
pub fn with_result(case: Case, numbers: &[u32], place: u64) -> Expected {
    let mut begins = numbers.to_vec();
    place.put(&mut begins);
    Expected { case, begins }
}
