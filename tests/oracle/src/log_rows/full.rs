//! Rows about refusal 14, with a log full of FF: what the ticks are answered.

use super::Expected;
use super::handed::{FULL_OF_FF, asks, empty, fitting, retires};
use super::listed::with_result;
use crate::case::Case;
use crate::offers::normal;
use crate::refusals::{
    COUNTER_FULL, LOG_FULL, NONE, NORMAL_REGISTER, NOT_RETIRABLE, OUT_OF_BOUNDS, UNWANTED_ANSWER,
    UNWANTED_OFFER, UNWANTED_SPECIAL,
};
use crate::row::Row;
use crate::rows::{Input, LentLog, Offer, Special, State};

/// The most that a tick logs: a retirement, three registers and a load.
const MOST: u64 = 5 + 3 * 6 + 10;
/// Bytes of the longest log.
const LONGEST: u32 = 64;

/// Gives the lines of these rows.
pub fn rows() -> Vec<Expected> {
    let room = rooms().into_iter().map(|(state, free, length, code)| {
        let given = fitting(&state);
        refused(state, given, free, length, code)
    });
    let other = others().into_iter().map(|(state, given, code)| {
        let (free, length) = (u64::MAX, LONGEST);
        refused(state, given, free, length, code)
    });
    room.chain(other).chain([fits()]).collect()
}

/// Makes the line of a tick that is refused, or that is accepted and logs nothing.
fn refused(state: State, given: Input, free: u64, length: u32, code: u32) -> Expected {
    let words = FULL_OF_FF;
    let lent = LentLog {
        free,
        length,
        words,
    };
    let mut line = with_result(Case::Logged(state, given, lent), &[code], free);
    words.put(&mut line.begins);
    if code != NONE {
        state.put(&mut line.begins);
    }
    line
}

/// Makes the state whose tick logs the most.
fn busy() -> State {
    let mut state = retires(3, true);
    state.ex_mem = asks(true, false, 4).ex_mem;
    state
}

/// Makes the line of a tick that logs the most, with just as much room.
fn fits() -> Expected {
    let state = busy();
    let lent = LentLog {
        free: 31,
        length: 64,
        words: FULL_OF_FF,
    };
    let case = Case::Logged(state, fitting(&state), lent);
    with_result(case, &[NONE], 31 + MOST)
}

/// States, first free places, bytes lent and codes: without events a full log is enough, but no place past its end.
fn rooms() -> Vec<(State, u64, u32, u32)> {
    let mut idle = busy();
    idle.running = false;
    vec![
        (busy(), 32, LONGEST, LOG_FULL),
        (busy(), 0, 32, LOG_FULL),
        (busy(), u64::MAX, LONGEST, LOG_FULL),
        (busy(), u64::MAX - MOST + 1, LONGEST, LOG_FULL),
        (empty(), 0, 0, NONE),
        (empty(), 64, LONGEST, NONE),
        (empty(), 65, LONGEST, LOG_FULL),
        (empty(), 1, 0, LOG_FULL),
        (empty(), 1 << 32, LONGEST, LOG_FULL),
        (empty(), u64::MAX, LONGEST, LOG_FULL),
        (idle, 64, LONGEST, NONE),
        (idle, 9, 8, LOG_FULL),
        (idle, u64::MAX, LONGEST, LOG_FULL),
    ]
}

/// States, what their ticks are given, and refusals that come before 14.
fn others() -> Vec<(State, Input, u32)> {
    let state = busy();
    let given = fitting(&state);
    let [mut outside, mut never, mut counted] = [state; 3];
    outside.mem_wb.dest = 33;
    never.mem_wb.iret = true;
    counted.cycles = u64::MAX;
    let [mut register, mut nothing, mut answer, mut special] = [given; 4];
    register.offer = normal(0x04, [32, 0, 1]);
    nothing.offer = Offer::Nothing;
    answer.answer = Input::NOTHING.answer;
    special.special = Special::Word(1);
    vec![
        (outside, given, OUT_OF_BOUNDS),
        (never, given, NOT_RETIRABLE),
        (counted, given, COUNTER_FULL),
        (state, register, NORMAL_REGISTER),
        (state, nothing, UNWANTED_OFFER),
        (state, answer, UNWANTED_ANSWER),
        (state, special, UNWANTED_SPECIAL),
    ]
}
