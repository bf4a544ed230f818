//! Case lines that need no others: one case, a list from its start on, or a run, play, preview or check for trades with
//! what it is given.

use crate::asked::{self, Asked};
use crate::buffers::{BLOCK_BYTES, BLOCK_WORDS, Buffers};
use crate::case::{Case, Kind};
use crate::cpu_pipeline::harness::Numbers;
use crate::line;
use crate::maker::Maker;
use crate::rows::{Decoded, Given, Raw};
use crate::sheet;
use crate::special_registers::MFSR;
use crate::turn_answers::TurnAnswers;
use std::collections::BTreeSet;

/// Bytes that a group weighs besides its text, so that few groups are chosen.
const WEIGHT: usize = 500;

/// Some lines, and for each of some turns the line at which it is told.
pub struct Group {
    pub lines: Vec<Asked>,
    pub told: Vec<(u32, usize)>,
}

impl Group {
    /// Asks the right way about cases.
    pub fn of(cases: Vec<Case>) -> Self {
        Self {
            lines: asked::answered(cases),
            told: Vec::new(),
        }
    }

    /// Notes where a turn is told, if it is.
    pub fn try_turn(&mut self, number: u32, answers: &mut TurnAnswers) {
        let place = asked::first_told(answers, &self.lines);
        self.told.extend(place.map(|place| (number, place)));
    }

    /// Tells whether a turn is told.
    pub fn tells(&self, number: u32) -> bool {
        self.told.iter().any(|&(told, _)| told == number)
    }

    /// Forgets all turns but some.
    pub fn keep(&mut self, numbers: &[u32]) {
        self.told.retain(|(number, _)| numbers.contains(number));
    }

    /// Leaves out the lines behind a place and the turns that they tell.
    pub fn cut(&mut self, place: usize) {
        self.lines.truncate(place + 1);
        self.told.retain(|&(_, told)| told <= place);
    }

    /// Gives the best cut of a group: how many turns it tells for its weight, and its place.
    pub fn best_cut(&self) -> Option<(f64, usize)> {
        let cuts = self
            .told
            .iter()
            .map(|&(_, place)| (self.worth(place), place));
        cuts.max_by(|one, other| one.0.total_cmp(&other.0))
    }

    /// Says how many turns the lines up to a place tell for their weight.
    fn worth(&self, place: usize) -> f64 {
        let told = self.told.iter().filter(|&&(_, told)| told <= place).count();
        let mut text = Vec::new();
        self.lines[..=place]
            .iter()
            .for_each(|line| put(&line.case, &mut text));
        told as f64 / (text.len() + WEIGHT) as f64
    }
}

/// Appends a case's line.
pub fn put(case: &Case, text: &mut Vec<u8>) {
    let mut numbers = Vec::new();
    case.put(&mut numbers);
    line::put(&numbers, text);
}

/// A source of groups.
pub struct Source {
    maker: Maker,
    /// What the lines made so far have put into the buffers.
    held: Buffers,
}

impl Source {
    /// Makes a source that gives the same groups for the same seed.
    pub fn new(seed: u64) -> Self {
        Self {
            maker: Maker::new(seed),
            held: Buffers::new(),
        }
    }

    /// Gives the cases of the next group of a kind; runs, plays, previews and checks are small ones if asked for.
    pub fn next(&mut self, kind: Kind, small: bool) -> Vec<Case> {
        let mut cases = Vec::new();
        if small {
            self.maker.next_small(kind, &mut cases);
        } else {
            self.maker.next(kind, &mut cases);
        }
        cases.iter().for_each(|case| self.hold(case));
        let asking = cases.iter().position(|case| !is_a_put(case));
        let behind = cases.split_off(asking.unwrap_or(cases.len()));
        let puts = behind.first().map_or(Vec::new(), |case| self.puts(case));
        puts.into_iter().chain(behind).collect()
    }

    /// Puts what a line puts.
    fn hold(&mut self, case: &Case) {
        match case {
            Case::PutSheet(at, block) => self.held.put_sheet(*at, block),
            Case::PutAnswers(at, block) => self.held.put_answers(*at, block),
            Case::PutTable(at, block) => self.held.put_table(*at, block),
            _ => {}
        }
    }

    /// Gives the lines that put all that a case is given, nothing for one without a sheet.
    fn puts(&self, case: &Case) -> Vec<Case> {
        match case {
            Case::Trades(lent) => self.sheet_puts(lent.sheet_length).collect(),
            _ => case
                .given()
                .map_or(Vec::new(), |given| self.run_puts(case, given)),
        }
    }

    /// Gives the lines that put all that a run, play or preview is given; of the table, what its MFSRs may read.
    fn run_puts(&self, case: &Case, given: &Given) -> Vec<Case> {
        let sheet = self.sheet_puts(given.sheet_length);
        let answers = (0..given.answer_count as usize).step_by(BLOCK_WORDS);
        let answers = answers.map(|at| Case::PutAnswers(at as u32, self.held.answer_block(at)));
        let table = self.table_places(case, given).into_iter();
        let table = table.map(|at| Case::PutTable(at as u32, self.held.table_block(at)));
        sheet.chain(answers).chain(table).collect()
    }

    /// Gives the lines that put a sheet of so many bytes.
    fn sheet_puts(&self, length: u32) -> impl Iterator<Item = Case> {
        let places = (0..length as usize).step_by(BLOCK_BYTES);
        places.map(|at| Case::PutSheet(at as u32, self.held.sheet_block(at)))
    }

    /// Gives the places of the lines that hold a special register of the sheet or of a latch, or one that it may be
    /// taken for.
    fn table_places(&self, case: &Case, given: &Given) -> BTreeSet<usize> {
        let (records, _) = self.held.sheet[..given.sheet_length as usize].as_chunks();
        let named = records.iter().filter_map(sheet::special_register);
        let named = named.chain(named_in_latches(case));
        let near =
            named.flat_map(|number| [number.saturating_sub(1), number, number + 1, number & 0xff]);
        let held = near.filter(|&number| number < given.table_length);
        held.map(|number| number as usize / BLOCK_WORDS * BLOCK_WORDS)
            .collect()
    }
}

/// Tells whether a line puts something into a buffer.
fn is_a_put(case: &Case) -> bool {
    matches!(
        case,
        Case::PutSheet(..) | Case::PutAnswers(..) | Case::PutTable(..)
    )
}

/// Gives the special registers that an MFSR in IF/ID or ID/EX of a run's or preview's state reads.
fn named_in_latches(case: &Case) -> impl Iterator<Item = u32> {
    let latches = match case {
        Case::Run(state, _) | Case::Panel(state, _) => Some((state.if_id.raw, state.id_ex.decoded)),
        _ => None,
    };
    let held = latches.into_iter().flat_map(|(fetched, decoded)| {
        let fetched = match fetched {
            Raw::Normal(instruction) => Some(instruction),
            Raw::Short(_) => None,
        };
        let decoded = match decoded {
            Decoded::Normal(instruction) => Some(instruction),
            Decoded::Short(_) => None,
        };
        [fetched, decoded]
    });
    let is_a_read = |instruction: &Numbers| instruction.variant == MFSR;
    let reads = held.flatten().filter(is_a_read);
    reads.map(|instruction| instruction.fields[1])
}
