//! A case as the numbers of its line.

use super::Case;
use crate::buffers::{ANSWERS, BLOCK_BYTES, BLOCK_WORDS, Block, SHEET_BYTES, TABLE_WORDS};
use crate::card_log::HELD_BYTES;
use crate::cpu_pipeline::harness::{Numbers, operands};
use crate::row::Row;
use crate::rows::{Given, LOG_BYTES, LentList, LentLog, ReadLog};
use crate::trades::HELD_ENTRIES;

impl Case {
    /// Gives the number that a case's line begins with.
    pub fn code(&self) -> u32 {
        match self {
            Case::Arithmetic(..) => 0x1,
            Case::Halfword(..) => 0x2,
            Case::Operands(..) => 0x3,
            Case::ShortOperands(..) => 0x4,
            Case::Tick(..) => 0x5,
            Case::Ask(..) => 0x6,
            Case::Forwarded(..) => 0x7,
            Case::Execute(..) => 0x8,
            Case::Decode(..) => 0x9,
            Case::Sources(..) => 0xa,
            Case::MulDiv(..) => 0xb,
            Case::Hazard(..) => 0xc,
            Case::Retire(..) => 0xd,
            Case::Start(..) => 0xe,
            Case::ListStart(..) => 0xf,
            Case::ListTick(..) => 0x10,
            Case::ListShow => 0x11,
            Case::PutSheet(..) => 0x12,
            Case::PutAnswers(..) => 0x13,
            Case::Run(..) => 0x14,
            Case::Player(..) => 0x15,
            Case::Panel(..) => 0x16,
            Case::PutTable(..) => 0x17,
            Case::Logged(..) => 0x18,
            Case::HoldLog(..) => 0x19,
            Case::LogTick(..) => 0x1a,
            Case::LogShow(..) => 0x1b,
            Case::LogRead(..) => 0x1c,
            Case::Reads(..) => 0x1d,
            Case::Trades(..) => 0x1e,
            Case::TradesShow(..) => 0x1f,
        }
    }

    /// Appends the numbers of the case's line.
    pub fn put(&self, out: &mut Vec<u32>) {
        out.push(self.code());
        match self {
            Case::Arithmetic(given) => given.put(out),
            Case::Halfword(halfword) | Case::ShortOperands(halfword) => halfword.put(out),
            Case::Operands(instruction) => instruction.put(out),
            Case::Tick(state, given) => put_both(state, given, out),
            Case::Ask(state) | Case::Retire(state) => state.put(out),
            Case::Forwarded(state, register) => put_both(state, register, out),
            Case::Execute(state, latch, special) => {
                put_both(state, latch, out);
                special.put(out);
            }
            Case::Decode(state, latch) => put_both(state, latch, out),
            Case::Sources(latch) => latch.put(out),
            Case::MulDiv(decoded) => decoded.put(out),
            Case::Hazard(latch, first, second) => put_both(latch, &[*first, *second], out),
            Case::Start(begin) | Case::ListStart(begin) => begin.put(out),
            Case::ListTick(given) | Case::LogTick(given) => given.put(out),
            Case::ListShow => {}
            Case::PutSheet(at, block) | Case::PutAnswers(at, block) | Case::PutTable(at, block) => {
                put_both(at, block, out);
            }
            Case::Run(state, given) | Case::Panel(state, given) => put_both(state, given, out),
            Case::Player(begin, given) => put_both(begin, given, out),
            Case::Logged(state, given, log) => {
                put_both(state, given, out);
                log.put(out);
            }
            Case::HoldLog(length, place) | Case::LogRead(length, place) => {
                put_both(length, place, out);
            }
            Case::LogShow(at) | Case::TradesShow(at) => at.put(out),
            Case::Reads(log) => log.put(out),
            Case::Trades(lent) => lent.put(out),
        }
    }

    /// Reads a case from the numbers of its line, or nothing if they do not fit.
    pub fn read(numbers: &[u32]) -> Option<Case> {
        let mut rest = numbers;
        let code = u32::take(&mut rest)?;
        let case = Case::read_behind(code, &mut rest)?;
        rest.is_empty().then_some(case)
    }

    /// Reads what stands behind the first number.
    fn read_behind(code: u32, rest: &mut &[u32]) -> Option<Case> {
        Some(match code {
            0x1 => Case::Arithmetic(Row::take(rest)?),
            0x2 => Case::Halfword(read_halfword(rest)?),
            0x3 => Case::Operands(read_instruction(rest)?),
            0x4 => Case::ShortOperands(read_halfword(rest)?),
            0x5 => Case::Tick(Row::take(rest)?, Row::take(rest)?),
            0x6 => Case::Ask(Row::take(rest)?),
            0x7 => Case::Forwarded(Row::take(rest)?, Row::take(rest)?),
            0x8 => Case::Execute(Row::take(rest)?, Row::take(rest)?, Row::take(rest)?),
            0x9 => Case::Decode(Row::take(rest)?, Row::take(rest)?),
            0xa => Case::Sources(Row::take(rest)?),
            0xb => Case::MulDiv(Row::take(rest)?),
            0xc => Case::Hazard(Row::take(rest)?, Row::take(rest)?, Row::take(rest)?),
            0xd => Case::Retire(Row::take(rest)?),
            0xe => Case::Start(Row::take(rest)?),
            0xf => Case::ListStart(Row::take(rest)?),
            0x10 => Case::ListTick(Row::take(rest)?),
            0x11 => Case::ListShow,
            0x12 => read_block(rest, SHEET_BYTES - BLOCK_BYTES, Case::PutSheet)?,
            0x13 => read_block(rest, ANSWERS - BLOCK_WORDS, Case::PutAnswers)?,
            0x14 => Case::Run(Row::take(rest)?, read_given(rest)?),
            0x15 => Case::Player(Row::take(rest)?, read_given(rest)?),
            0x16 => Case::Panel(Row::take(rest)?, read_given(rest)?),
            0x17 => read_block(rest, TABLE_WORDS - BLOCK_WORDS, Case::PutTable)?,
            0x18 => Case::Logged(Row::take(rest)?, Row::take(rest)?, read_lent_log(rest)?),
            0x19 => read_log_part(rest, Case::HoldLog)?,
            0x1a => Case::LogTick(Row::take(rest)?),
            0x1b => Case::LogShow(read_log_place(rest)?),
            0x1c => read_log_part(rest, Case::LogRead)?,
            0x1d => Case::Reads(read_short_log(rest)?),
            0x1e => Case::Trades(read_lent_list(rest)?),
            0x1f => Case::TradesShow(read_list_place(rest)?),
            _ => return None,
        })
    }
}

/// Appends the numbers of two groups.
fn put_both(first: &impl Row, second: &impl Row, out: &mut Vec<u32>) {
    first.put(out);
    second.put(out);
}

/// Reads a halfword.
fn read_halfword(rest: &mut &[u32]) -> Option<u32> {
    u32::take(rest).filter(|&halfword| halfword <= 0xffff)
}

/// Reads a Normal instruction, with registers up to 31.
fn read_instruction(rest: &mut &[u32]) -> Option<Numbers> {
    Numbers::take(rest).filter(|&numbers| operands::are_of_an_instruction(numbers))
}

/// Reads a place in a buffer, up to the last, and what is put there.
fn read_block(rest: &mut &[u32], last: usize, case: fn(u32, Block) -> Case) -> Option<Case> {
    let at = u32::take(rest)?;
    let block = Block::take(rest)?;
    (at as usize <= last).then_some(case(at, block))
}

/// Reads what a run is given, within the buffers.
fn read_given(rest: &mut &[u32]) -> Option<Given> {
    let given = Given::take(rest)?;
    let held = given.sheet_length as usize <= SHEET_BYTES
        && given.answer_count as usize <= ANSWERS
        && given.table_length as usize <= TABLE_WORDS;
    held.then_some(given)
}

/// Reads a log that a tick is lent, within its words.
fn read_lent_log(rest: &mut &[u32]) -> Option<LentLog> {
    LentLog::take(rest).filter(|log| log.length as usize <= LOG_BYTES)
}

/// Reads a log that is read, within its words.
fn read_short_log(rest: &mut &[u32]) -> Option<ReadLog> {
    ReadLog::take(rest).filter(|log| log.length as usize <= LOG_BYTES)
}

/// Reads how much of the log held is meant, and a place in it or not.
fn read_log_part(rest: &mut &[u32], case: fn(u32, u64) -> Case) -> Option<Case> {
    let length = u32::take(rest)?;
    let place = u64::take(rest)?;
    (length as usize <= HELD_BYTES).then_some(case(length, place))
}

/// Reads where the part of the log held that is shown begins.
fn read_log_place(rest: &mut &[u32]) -> Option<u32> {
    u32::take(rest).filter(|&at| at as usize <= HELD_BYTES - BLOCK_BYTES)
}

/// Reads how much of the sheet and of the list held is lent, within both, and what fills the list.
fn read_lent_list(rest: &mut &[u32]) -> Option<LentList> {
    LentList::take(rest).filter(|lent| {
        lent.sheet_length as usize <= SHEET_BYTES
            && lent.length as usize <= HELD_ENTRIES
            && lent.fill <= u32::from(u16::MAX)
    })
}

/// Reads where the part of the list held that is shown begins.
fn read_list_place(rest: &mut &[u32]) -> Option<u32> {
    u32::take(rest).filter(|&at| at as usize <= HELD_ENTRIES - BLOCK_WORDS)
}
