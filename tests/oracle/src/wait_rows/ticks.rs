//! Rows of single ticks, with a log or without: the waits told, those left, and the refusals.

use super::Expected;
use super::states::{asking, halting, holding_what_never_retires, moved, stopped, waited, waiting};
use crate::case::Case;
use crate::offers::{NOP, normal};
use crate::refusals::{
    BAD_WAIT, COUNTER_FULL, LOG_FULL, NONE, NORMAL_REGISTER, NOT_RETIRABLE, OUT_OF_BOUNDS,
    UNWANTED_ANSWER, UNWANTED_OFFER, UNWANTED_SPECIAL,
};
use crate::row::Row;
use crate::rows::{Answer, Input, LentLog, Offer, Special, State, Waits};

/// The answer to a load, and an instruction that is refused 1.
const ANSWERED: Answer = Answer {
    given: true,
    word: 21,
};
const ADD_R32: Offer = normal(0x03, [32, 0, 0]);

/// A state, what its tick is given, and the refusal.
type Refused = (State, Input, u32);

/// Gives the lines of these rows.
pub fn rows() -> Vec<Expected> {
    let accepted = accepted().into_iter().chain(waiting_ticks());
    let refused = [told(), left(), before_24(), full()].into_iter().flatten();
    let refused = refused.map(|(state, given, code)| tick(state, given, code, state));
    accepted.chain(refused).chain(logged_ticks()).collect()
}

/// Gives a tick a NOP and the waits of its fetch and its load.
fn fetching(fetch: u32, load: u32) -> Input {
    Input {
        offer: NOP,
        waits: Waits { fetch, load },
        ..Input::NOTHING
    }
}

/// Gives a tick nothing but waits.
fn only(fetch: u32, load: u32) -> Input {
    Input {
        offer: Offer::Nothing,
        ..fetching(fetch, load)
    }
}

/// Gives a tick an answer too.
fn answered(given: Input) -> Input {
    Input {
        answer: ANSWERED,
        ..given
    }
}

/// Makes the line of a tick.
fn tick(state: State, given: Input, code: u32, next: State) -> Expected {
    let mut begins = vec![code];
    next.put(&mut begins);
    Expected {
        case: Case::Tick(state, given),
        begins,
    }
}

/// Ticks with a fetch, a load or both that wait, as long as is accepted: both waits are left behind the tick.
fn accepted() -> Vec<Expected> {
    let fresh = waiting(0);
    let (loads, stores) = (asking(&fresh, true), asking(&fresh, false));
    let ticks = [
        (fresh, fetching(1, 0)),
        (fresh, fetching(1_000, 0)),
        (loads, answered(fetching(0, 1_000))),
        (loads, answered(fetching(1_000, 1_000))),
        (loads, answered(fetching(2, 3))),
        (stores, fetching(1_000, 0)),
    ];
    ticks
        .map(|(state, given)| tick(state, given, NONE, moved(&state, &given)))
        .into()
}

/// Ticks of a wait: nothing moves, whatever the state holds and whether the machine runs.
fn waiting_ticks() -> Vec<Expected> {
    let one = waiting(1);
    let moving = [asking(&one, true), asking(&one, false), halting(&one)];
    let kept = holding_what_never_retires(&one);
    let kept_and_stopped = kept.map(|state| stopped(&state));
    let few = [
        one,
        stopped(&one),
        waiting(2),
        waiting(2_000),
        stopped(&waiting(2_000)),
    ];
    let states = few
        .into_iter()
        .chain(moving)
        .chain(kept)
        .chain(kept_and_stopped);
    states
        .map(|state| tick(state, Input::NOTHING, NONE, waited(&state, 1)))
        .collect()
}

/// Waits that are too long, or told without their own fetch or load.
fn told() -> Vec<Refused> {
    let fresh = waiting(0);
    let (loads, stores) = (asking(&fresh, true), asking(&fresh, false));
    vec![
        (fresh, fetching(1_001, 0), BAD_WAIT),
        (fresh, fetching(0xffff, 0), BAD_WAIT),
        (fresh, fetching(0, 1), BAD_WAIT),
        (fresh, fetching(1, 1), BAD_WAIT),
        (loads, answered(fetching(0, 1_001)), BAD_WAIT),
        (loads, answered(fetching(1_000, 1_001)), BAD_WAIT),
        (stores, fetching(0, 1), BAD_WAIT),
        (stopped(&fresh), only(1, 0), BAD_WAIT),
        (stopped(&loads), only(0, 1), BAD_WAIT),
        (halting(&loads), only(1, 0), BAD_WAIT),
        (halting(&loads), only(0, 1), BAD_WAIT),
    ]
}

/// Ticks of a wait that are given something, and more ticks left than there can be.
fn left() -> Vec<Refused> {
    let one = waiting(1);
    let special = Input {
        special: Special::Word(7),
        ..Input::NOTHING
    };
    let register = Input {
        offer: ADD_R32,
        ..Input::NOTHING
    };
    vec![
        (waiting(2_001), Input::NOTHING, OUT_OF_BOUNDS),
        (stopped(&waiting(2_001)), Input::NOTHING, OUT_OF_BOUNDS),
        (waiting(u32::MAX), Input::NOTHING, OUT_OF_BOUNDS),
        (one, fetching(0, 0), UNWANTED_OFFER),
        (one, register, NORMAL_REGISTER),
        (one, answered(Input::NOTHING), UNWANTED_ANSWER),
        (
            asking(&one, true),
            answered(Input::NOTHING),
            UNWANTED_ANSWER,
        ),
        (one, special, UNWANTED_SPECIAL),
        (one, only(1, 0), BAD_WAIT),
        (asking(&one, true), only(0, 1), BAD_WAIT),
        (stopped(&one), only(1, 0), BAD_WAIT),
        (stopped(&one), fetching(0, 0), UNWANTED_OFFER),
    ]
}

/// A wait that is too long together with what is refused before it.
fn before_24() -> Vec<Refused> {
    let fresh = waiting(0);
    let (register, special) = (
        Input {
            offer: ADD_R32,
            ..fetching(1_001, 0)
        },
        Input {
            special: Special::NoSuchRegister,
            ..fetching(1_001, 0)
        },
    );
    let mut outside = fresh;
    outside.mem_wb.dest = 33;
    let [raising, ..] = holding_what_never_retires(&fresh);
    let mut counted = fresh;
    counted.cycles = u64::MAX;
    vec![
        (outside, fetching(1_001, 0), OUT_OF_BOUNDS),
        (raising, fetching(1_001, 0), NOT_RETIRABLE),
        (counted, fetching(1_001, 0), COUNTER_FULL),
        (fresh, register, NORMAL_REGISTER),
        (fresh, only(1_001, 0), UNWANTED_OFFER),
        (fresh, answered(fetching(0, 1)), UNWANTED_ANSWER),
        (asking(&fresh, true), fetching(0, 1_001), UNWANTED_ANSWER),
        (fresh, special, UNWANTED_SPECIAL),
    ]
}

/// Full counters while a wait is left, those that its tick does not count too.
fn full() -> Vec<Refused> {
    let counters: [fn(&mut State) -> &mut u64; 5] = [
        |state| &mut state.cycles,
        |state| &mut state.running_cycles,
        |state| &mut state.instructions_executed,
        |state| &mut state.stall_cycles,
        |state| &mut state.flush_events,
    ];
    let filled = counters.map(|counter| {
        let mut state = waiting(1);
        *counter(&mut state) = u64::MAX;
        state
    });
    let states = filled.into_iter().chain([stopped(&filled[0])]);
    states
        .map(|state| (state, Input::NOTHING, COUNTER_FULL))
        .collect()
}

/// Ticks with a log of no bytes: a tick of a wait has no events, and 24 comes before 14.
fn logged_ticks() -> Vec<Expected> {
    let (one, fresh) = (halting(&waiting(1)), waiting(0));
    let next = waited(&one, 1);
    let stores = asking(&waiting(1), false);
    vec![
        logged(one, Input::NOTHING, 0, NONE, next),
        logged(stores, Input::NOTHING, 0, NONE, waited(&stores, 1)),
        logged(one, Input::NOTHING, 1, LOG_FULL, one),
        logged(one, only(1, 0), 1, BAD_WAIT, one),
        logged(fresh, fetching(1_001, 0), 1, BAD_WAIT, fresh),
        logged(fresh, fetching(0, 1), 1, BAD_WAIT, fresh),
        logged(halting(&fresh), only(0, 1), 0, BAD_WAIT, halting(&fresh)),
    ]
}

/// Makes the line of a tick with a log of no bytes, which stays as it is.
fn logged(state: State, given: Input, free: u64, code: u32, next: State) -> Expected {
    let words = [0; 16];
    let lent = LentLog {
        free,
        length: 0,
        words,
    };
    let mut begins = vec![code];
    free.put(&mut begins);
    words.put(&mut begins);
    next.put(&mut begins);
    Expected {
        case: Case::Logged(state, given, lent),
        begins,
    }
}
