//! The rows of RULES 26.4 as case lines, each with its origins.

mod executed;
mod forwarded;
mod held;
mod latches;
mod listed;

use crate::answers::Answers;
use crate::case::Case;
use crate::checked_rows::{self, CheckedRow};
use crate::row::Row;
use crate::rows::Origin;
use std::io::{Error, Result, Write};

/// A case, and the origins with which its result line ends; none where it has no result.
struct Expected {
    case: Case,
    origins: Vec<Origin>,
}

/// Writes the case lines of all rows, or fails at one whose origins are others.
pub fn run(out: impl Write) -> Result<bool> {
    let rows = [
        listed::rows(),
        forwarded::rows(),
        executed::rows(),
        held::rows(),
    ];
    checked_rows::write(&rows, out)
}

impl CheckedRow for Expected {
    fn case(&self) -> &Case {
        &self.case
    }

    /// Compares the origins of an accepted case with those expected.
    fn compare(&self, answers: &mut Answers) -> Result<()> {
        let (mut numbers, mut origins) = (Vec::new(), Vec::new());
        let has_a_result = answers.answer(&self.case, &mut numbers);
        self.origins
            .iter()
            .for_each(|origin| origin.put(&mut origins));
        let is_accepted = !has_a_result || numbers.first() == Some(&0);
        if is_accepted && numbers.ends_with(&origins) {
            return Ok(());
        }
        let case = self.case;
        Err(Error::other(format!(
            "origin rows: {origins:?} expected, {numbers:x?} answered to {case:?}"
        )))
    }
}
