//! Byte strings of every length as sheets.

use super::Maker;
use crate::buffers::{BLOCK_WORDS, SHEET_BYTES};
use crate::case::Case;
use crate::rows::{Begin, Given, State};
use crate::runner::{End, HIGHEST_LIMIT};
use crate::sheet::{self, COMMANDS, LONGEST, RECORD_BYTES, Shape};
use crate::tickrun;

/// The longest byte string.
const LONGEST_STRING: u32 = 20_500;
/// Byte strings that share their background.
const SHARING: u32 = 400;
/// Ticks that are tried out before a limit is chosen.
const TRIED: u32 = 3_000;
/// Records at the front that many strings change, and records in the longest sheet.
const FRONT: u32 = 51;
const MOST: u32 = (LONGEST / RECORD_BYTES) as u32;

/// The bytes that byte strings share; each changes a few of them.
pub struct Background {
    bytes: Vec<u8>,
    valid: bool,
    left: u32,
}

impl Background {
    /// Makes one that is used up.
    pub fn new() -> Self {
        Self {
            bytes: vec![0; SHEET_BYTES],
            valid: true,
            left: 0,
        }
    }
}

impl Maker {
    /// Appends the next byte string as a run, and the lines that it needs.
    pub fn fuzz(&mut self, out: &mut Vec<Case>) {
        let sheet_length = self.byte_string();
        let begin = self.string_begin();
        let state = self.original.start(&begin);
        let mut given = Given {
            limit: TRIED,
            sheet_length,
            answer_count: self.random.pick(&[0, 0, 0, 1, 20, 64]),
            table_length: self.string_table_length(),
        };
        given.limit = self.string_limit(&state, given);
        self.send(&given, out);
        out.push(Case::Run(state, given));
    }

    /// Puts the next byte string into the sheet that is wanted, unless it is refused anyway, and gives its length.
    pub fn byte_string(&mut self) -> u32 {
        let length = self.string_length();
        if !sheet::length_breaks(length as usize) {
            self.change_the_background();
            self.wanted.sheet.copy_from_slice(&self.background.bytes);
            self.spoil(length / RECORD_BYTES as u32);
        }
        length
    }

    /// Chooses a length: any, any whole number of records, or one at the limits.
    fn string_length(&mut self) -> u32 {
        let bytes = RECORD_BYTES as u32;
        match self.random.below(20) {
            0..9 => self.random.below(LONGEST_STRING + 1),
            9..16 => bytes * self.random.below(LONGEST_STRING / bytes + 1),
            16 | 17 => self.random.below(12),
            _ => LONGEST_STRING - self.random.below(33),
        }
    }

    /// Makes another background once in a while, and another front of it more often.
    fn change_the_background(&mut self) {
        let records = if self.background.left == 0 {
            self.background.left = SHARING;
            self.background.valid = self.random.chance(80);
            self.wanted.answers[..BLOCK_WORDS].fill_with(|| self.random.word());
            self.wanted.table[..4 * BLOCK_WORDS].fill_with(|| self.random.word());
            SHEET_BYTES / RECORD_BYTES
        } else if !self.background.valid || self.random.chance(40) {
            FRONT as usize
        } else {
            0
        };
        self.background.left -= 1;
        let orderly = self.random.chance(50);
        for place in 0..records {
            let bytes = self.background_record(orderly);
            self.background.bytes[RECORD_BYTES * place..][..RECORD_BYTES].copy_from_slice(&bytes);
        }
    }

    /// Makes a record of the background: a valid one, of few registers if orderly, or any bytes.
    fn background_record(&mut self, orderly: bool) -> [u8; RECORD_BYTES] {
        if !self.background.valid {
            return std::array::from_fn(|_| self.byte());
        }
        if orderly {
            let instruction = self.listed_normal(1);
            return sheet::write(&sheet::Record::Normal(instruction));
        }
        let place = self.random.below(COMMANDS.len() as u32) as usize;
        let (command, _, shape) = COMMANDS[place];
        self.any_operands(command, shape)
    }

    /// Makes a valid record of a command with any operands.
    pub fn any_operands(&mut self, command: u8, shape: Shape) -> [u8; RECORD_BYTES] {
        let mut bytes = [command, self.byte(), self.byte(), self.byte(), self.byte()];
        for &place in shape.unused() {
            bytes[place] = 0;
        }
        for register in &mut bytes[1..=shape.registers()] {
            *register &= 31;
        }
        bytes
    }

    /// Damages a record or two, or a stretch of bytes, or nothing.
    fn spoil(&mut self, count: u32) {
        if count == 0 || !self.background.valid && self.random.chance(80) {
            return;
        }
        let times = self.random.pick(&[0, 0, 0, 0, 1, 1, 1, 1, 2, 2]);
        for _ in 0..times {
            let range = if self.random.chance(25) {
                count.min(FRONT)
            } else {
                count
            };
            let place = self.random.below(range) as usize;
            let mut bytes = *self.wanted_record(place);
            self.damage(&mut bytes);
            *self.wanted_record(place) = bytes;
        }
        if self.random.chance(8) {
            let first = self.random.below(LONGEST as u32 - 64) as usize;
            for place in first..first + 1 + self.random.below(64) as usize {
                self.wanted.sheet[place] = self.byte();
            }
        }
    }

    /// Makes the start: most often that of the program tickrun.
    pub fn string_begin(&mut self) -> Begin {
        if self.random.chance(70) {
            tickrun::BEGIN
        } else {
            let record = self.random.pick(&[0, FRONT, MOST]);
            let pc = 4 * self.random.below(record + 1) + self.random.pick(&[0, 0, 0, 0, 1, 2, 3]);
            Begin {
                pc,
                ..self.list_begin()
            }
        }
    }

    /// Chooses the length of the table: none, as for the program tickrun, every number, or any.
    pub fn string_table_length(&mut self) -> u32 {
        match self.random.below(4) {
            0 => 0,
            1 => self.random.below(65_601),
            _ => self.random.pick(&[65_535, 65_536, 65_600]),
        }
    }

    /// Chooses the tick limit: the highest where the run ends soon.
    fn string_limit(&mut self, state: &State, given: Given) -> u32 {
        let run = self.try_out(state, &given);
        match self.random.below(20) {
            0 => HIGHEST_LIMIT + 1,
            1 | 2 => run.ticks,
            _ if run.end == End::Spent => self.random.below(TRIED + 1),
            3 => run.ticks + 1,
            _ => HIGHEST_LIMIT,
        }
    }
}
