//! The buffers that a run needs, and the lines that fill them.

use super::Maker;
use crate::buffers::{BLOCK_BYTES, BLOCK_WORDS};
use crate::case::Case;
use crate::player::{self, Played};
use crate::rows::{Begin, Given, State};
use crate::runner::{self, Run};
use crate::sheet::{RECORD_BYTES, Record, write};

impl Maker {
    /// Writes records into the sheet that is wanted.
    pub fn want_records(&mut self, records: &[Record]) {
        let (wanted, _) = self.wanted.sheet.as_chunks_mut();
        for (bytes, record) in wanted.iter_mut().zip(records) {
            *bytes = write(record);
        }
    }

    /// Gives the bytes of a wanted record.
    pub fn wanted_record(&mut self, place: usize) -> &mut [u8; RECORD_BYTES] {
        let (records, _) = self.wanted.sheet.as_chunks_mut();
        &mut records[place]
    }

    /// Appends the lines that are missing for a sheet of so many bytes.
    pub fn send_sheet(&mut self, length: u32, out: &mut Vec<Case>) {
        for at in (0..length as usize).step_by(BLOCK_BYTES) {
            let block = at..at + BLOCK_BYTES;
            if self.wanted.sheet[block.clone()] != self.held.sheet[block] {
                let words = self.wanted.sheet_block(at);
                self.held.put_sheet(at as u32, &words);
                out.push(Case::PutSheet(at as u32, words));
            }
        }
    }

    /// Appends the lines that are missing for a run or a play.
    pub fn send(&mut self, given: &Given, out: &mut Vec<Case>) {
        self.send_sheet(given.sheet_length, out);
        for at in (0..given.answer_count as usize).step_by(BLOCK_WORDS) {
            let block = at..at + BLOCK_WORDS;
            if self.wanted.answers[block.clone()] != self.held.answers[block] {
                let words = self.wanted.answer_block(at);
                self.held.put_answers(at as u32, &words);
                out.push(Case::PutAnswers(at as u32, words));
            }
        }
        for at in (0..given.table_length as usize).step_by(BLOCK_WORDS) {
            let block = at..at + BLOCK_WORDS;
            if self.wanted.table[block.clone()] != self.held.table[block] {
                let words = self.wanted.table_block(at);
                self.held.put_table(at as u32, &words);
                out.push(Case::PutTable(at as u32, words));
            }
        }
    }

    /// Runs what is wanted.
    pub fn try_out(&mut self, state: &State, given: &Given) -> Run {
        let task = self.wanted.task(given);
        runner::run(&mut self.original, state, &task)
    }

    /// Plays what is wanted.
    pub fn try_playing(&self, begin: &Begin, given: &Given) -> Played {
        player::play(begin, &self.wanted.task(given))
    }
}
