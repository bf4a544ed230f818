//! Answers given on a wrong turn.

use crate::answers::Answers;
use crate::case::Case;
use crate::turn;
use std::panic::{AssertUnwindSafe, catch_unwind};

/// Answers cases on one turn, the right way included.
pub struct TurnAnswers {
    number: u32,
    answers: Answers,
    numbers: Vec<u32>,
}

impl TurnAnswers {
    /// Begins with no list under way.
    pub fn new(number: u32) -> Self {
        Self {
            number,
            answers: on_turn(number, Answers::new).expect("answers without a question"),
            numbers: Vec::new(),
        }
    }

    /// Gives the numbers of a case's result line, or nothing where the turn leads to no answer at all.
    pub fn answer(&mut self, case: &Case) -> Option<&[u32]> {
        self.numbers.clear();
        let answered = on_turn(self.number, || self.answers.answer(case, &mut self.numbers));
        if answered.is_none() {
            *self = Self::new(self.number);
        }
        answered.map(|_| self.numbers.as_slice())
    }
}

/// Does something on a turn, and gives nothing where it panics.
fn on_turn<T>(number: u32, act: impl FnOnce() -> T) -> Option<T> {
    turn::take(number);
    let done = catch_unwind(AssertUnwindSafe(act));
    turn::take(turn::NONE);
    done.ok()
}
