//! Two neighbours of a sheet in both orders on the original.

use super::registers::of_moving;
use crate::cpu_pipeline::harness::original::Original;
use crate::generator::Generator;
use crate::maker::ORIGINAL_FEATURES;
use crate::rows::{Begin, NORMAL};
use crate::runner::{self, Run, Task};
use crate::sheet::{RECORD_ADDRESSES, RECORD_BYTES};

/// Enough ticks for a load and two instructions, whatever they are.
const TICKS: u32 = 100;
/// The command of a load, and how many registers there are.
const LD: u8 = 0x21;
const REGISTERS: u8 = 32;

/// A sheet whose records change places, and where the registers come from.
pub struct Orders {
    sheet: Vec<u8>,
    random: Generator,
}

/// Where and with what a run begins, the words of its loads, and how many instructions are to retire.
struct Start {
    begin: Begin,
    answers: [u32; 2],
    count: u32,
}

/// What a run leaves: its registers, and how many ticks it took.
struct Left {
    registers: [u32; 32],
    ticks: u32,
}

/// Whether two orders leave the same registers, and whether they take the same ticks but for those that the first of the
/// two waits for a load directly before.
pub struct Agreement {
    pub registers: bool,
    pub ticks: bool,
}

impl Orders {
    /// Takes over a valid sheet, whose bytes and a number choose the registers.
    pub fn new(sheet: &[u8], number: u32) -> Self {
        let seed = sheet.iter().fold(u64::from(number), |seed, &byte| {
            seed.rotate_left(9).wrapping_mul(5) ^ u64::from(byte)
        });
        Self {
            sheet: sheet.to_vec(),
            random: Generator::new(seed),
        }
    }

    /// Tells what is as it should be after both orders of the records at a place and behind it, in both user modes, from
    /// the first of them on or, now and then, from a load before it.
    pub fn agree(&mut self, original: &mut Original, place: u32) -> Agreement {
        if place == 0 || !self.random.chance(20) {
            return self.agree_from(original, place, place);
        }
        let held = *self.record(place - 1);
        *self.record(place - 1) = self.load_before(place);
        let agree = self.agree_from(original, place - 1, place);
        *self.record(place - 1) = held;
        agree
    }

    /// Tells the same from a place on: that of the two, or that of a load before them.
    fn agree_from(&mut self, original: &mut Original, first: u32, place: u32) -> Agreement {
        let mut agree = Agreement {
            registers: true,
            ticks: true,
        };
        let waits = [place, place + 1].map(|second| self.waits_for(first, second));
        for user in [false, true] {
            let start = self.start(first, place + 2 - first, user);
            let as_given = self.left(original, &start);
            self.exchange(place);
            let exchanged = self.left(original, &start);
            self.exchange(place);
            agree.registers &= as_given.registers == exchanged.registers;
            agree.ticks &= as_given.ticks + waits[1] == exchanged.ticks + waits[0];
        }
        agree
    }

    /// Gives the ticks, one or none, that a record waits for the one at a place, if that is a load and directly before.
    fn waits_for(&mut self, first: u32, second: u32) -> u32 {
        let [command, loaded, ..] = *self.record(first);
        let sources = of_moving(self.record(second)).map(|registers| registers.sources);
        let used = loaded != 0 && sources.is_some_and(|sources| sources.contains(&loaded));
        u32::from(command == LD && used)
    }

    /// Makes a start at a place, with any registers.
    fn start(&mut self, first: u32, count: u32, user: bool) -> Start {
        Start {
            begin: Begin {
                reg: std::array::from_fn(|_| self.random.limit_or_word()),
                pc: RECORD_ADDRESSES * first,
                mode: NORMAL,
                user,
                features: ORIGINAL_FEATURES,
            },
            answers: std::array::from_fn(|_| self.random.limit_or_word()),
            count,
        }
    }

    /// Gives what is left once so many instructions in a row have retired.
    fn left(&self, original: &mut Original, start: &Start) -> Left {
        let task = Task {
            sheet: &self.sheet,
            answers: &start.answers,
            table: &[],
            limit: TICKS,
        };
        let mut run = Run::new(&original.start(&start.begin));
        let (mut left, count) = (task.answers, start.count);
        while run.state.instructions_executed < count.into() {
            let ended = runner::turn(original, &task, &mut run, &mut left);
            assert_eq!(ended, None, "the run ends before {count} retire");
        }
        let retired = run.state.instructions_executed;
        assert_eq!(retired, count.into(), "how many retire");
        let behind = start.begin.pc + RECORD_ADDRESSES * count;
        assert_eq!(run.state.retire_pc, behind, "where they retire");
        Left {
            registers: run.state.reg,
            ticks: run.ticks,
        }
    }

    /// Makes a load into a register of one of the records at a place and behind it.
    fn load_before(&mut self, place: u32) -> [u8; RECORD_BYTES] {
        let chosen = place + self.random.below(2);
        let operand = 1 + self.random.below(3) as usize;
        let register = self.record(chosen)[operand] % REGISTERS;
        [LD, register, 0, 0, 4 * self.random.below(9) as u8]
    }

    /// Exchanges the records at a place and behind it.
    fn exchange(&mut self, place: u32) {
        let held = *self.record(place);
        *self.record(place) = std::mem::replace(self.record(place + 1), held);
    }

    /// Gives a record.
    fn record(&mut self, place: u32) -> &mut [u8; RECORD_BYTES] {
        let (records, _) = self.sheet.as_chunks_mut();
        &mut records[place as usize]
    }
}
