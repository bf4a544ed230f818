//! Rows whose state is handed in, with a log of room enough: what the tick logs.

use super::Expected;
use super::listed::{FEATURES, with_result};
use super::lists::{IDENTIFICATION, access};
use crate::card_log::{Event, bytes};
use crate::case::Case;
use crate::cpu_pipeline::harness::original::Original;
use crate::offers::given;
use crate::refusals::NONE;
use crate::row::Row;
use crate::rows::{Begin, Input, LOG_BYTES, LentLog, LogWords, State, words_of};
use crate::tickrun::BEGIN;
use Event::{Loaded, Retired, Stored, Written};

/// The word of every load, and the one in EX/MEM for a store.
const LOADED: u32 = 21;
const STORED: u32 = 0x1234_5678;

/// A log full of FF.
pub const FULL_OF_FF: LogWords = [u32::MAX; 16];

/// Gives the state of a start with the feature word of the rows.
pub fn empty() -> State {
    let features = FEATURES;
    Original::fresh().start(&Begin { features, ..BEGIN })
}

/// Gives a tick on a state what it asks for.
pub fn fitting(state: &State) -> Input {
    given(&[], LOADED, &Original::fresh().asked(state))
}

/// Gives the lines of these rows.
pub fn rows() -> Vec<Expected> {
    let rows = retiring().into_iter().chain(asking()).chain(kept());
    rows.map(|(state, events)| line(state, &events)).collect()
}

/// Makes the line of a state whose tick logs some events.
fn line(state: State, events: &[Event]) -> Expected {
    let entries = bytes(events);
    let mut log = [0xff; LOG_BYTES];
    log[..entries.len()].copy_from_slice(&entries);
    let lent = LentLog {
        free: 0,
        length: LOG_BYTES as u32,
        words: FULL_OF_FF,
    };
    let case = Case::Logged(state, fitting(&state), lent);
    let mut line = with_result(case, &[NONE], entries.len() as u64);
    words_of(&log).put(&mut line.begins);
    line
}

/// Makes a MEM/WB that retires from address 12 and writes a register, with CPUID or not.
pub fn retires(register: u32, cpuid: bool) -> State {
    let mut state = empty();
    let latch = &mut state.mem_wb;
    (latch.valid, latch.writeback, latch.cpuid) = (true, true, cpuid);
    (latch.pc, latch.dest, latch.value) = (12, register + 1, 9);
    state
}

/// Makes an EX/MEM that loads or stores at address 6.
pub fn asks(is_load: bool, is_store: bool, width: u32) -> State {
    let mut state = empty();
    let latch = &mut state.ex_mem;
    (latch.valid, latch.is_load, latch.is_store) = (true, is_load, is_store);
    (latch.mem_addr, latch.mem_size, latch.store_value) = (6, width, STORED);
    state
}

/// States whose MEM/WB retires: CPUID comes before a destination, and R0 is not logged.
fn retiring() -> Vec<(State, Vec<Event>)> {
    let identified = [
        Retired(12),
        Written(1, IDENTIFICATION),
        Written(2, FEATURES),
    ];
    let unwritten = {
        let mut state = retires(5, false);
        state.mem_wb.writeback = false;
        state
    };
    let unchanged = {
        let mut state = retires(5, false);
        state.reg[5] = 9;
        state
    };
    vec![
        (
            retires(1, true),
            [&identified[..], &[Written(1, 9)]].concat(),
        ),
        (
            retires(2, true),
            [&identified[..], &[Written(2, 9)]].concat(),
        ),
        (
            retires(31, true),
            [&identified[..], &[Written(31, 9)]].concat(),
        ),
        (retires(0, true), identified.to_vec()),
        (retires(0, false), vec![Retired(12)]),
        (retires(1, false), vec![Retired(12), Written(1, 9)]),
        (retires(31, false), vec![Retired(12), Written(31, 9)]),
        (unwritten, vec![Retired(12)]),
        (unchanged, vec![Retired(12), Written(5, 9)]),
    ]
}

/// States whose EX/MEM loads or stores: a load comes before a store, and a width of 0 asks for nothing.
fn asking() -> Vec<(State, Vec<Event>)> {
    vec![
        (asks(true, true, 4), vec![Loaded(access(6, 4, LOADED))]),
        (asks(true, false, 0), vec![]),
        (asks(false, true, 0), vec![]),
        (asks(true, true, 0), vec![]),
        (asks(true, false, 2), vec![Loaded(access(6, 2, LOADED))]),
        (asks(false, true, 4), vec![Stored(access(6, 4, STORED))]),
        (asks(false, true, 2), vec![Stored(access(6, 2, 0x5678))]),
        (asks(false, true, 1), vec![Stored(access(6, 1, 0x78))]),
    ]
}

/// States with a store in EX/MEM and a MEM/WB that retires: the machine does not run, a HALT retires, a wait goes on.
fn kept() -> Vec<(State, Vec<Event>)> {
    let mut both = asks(false, true, 4);
    both.mem_wb = retires(3, false).mem_wb;
    let [mut idle, mut halting, mut waiting, mut invalid] = [both; 4];
    idle.running = false;
    halting.mem_wb.halt = true;
    (waiting.ex_armed, waiting.ex_cycles_left) = (true, 15);
    (invalid.mem_wb.valid, invalid.ex_mem.valid) = (false, false);
    let retired = [Retired(12), Written(3, 9)];
    let all = [&retired[..], &[Stored(access(6, 4, STORED))]].concat();
    vec![
        (both, all.clone()),
        (idle, vec![]),
        (halting, retired.to_vec()),
        (waiting, all),
        (invalid, vec![]),
    ]
}
