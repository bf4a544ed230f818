//! What an expected answer says came of its case.

use super::feed::Expected;
use std::fmt::{Display, Formatter, Result};

/// What came of a case.
#[derive(Debug, Clone, Copy, PartialEq, Eq, PartialOrd, Ord)]
pub enum Outcome {
    Accepted,
    Halted,
    Spent,
    Loads,
    Stopped,
    Refused(u32),
}

impl Outcome {
    /// Reads it off an expected line, unless such a line does not tell.
    pub fn of(expected: &Expected) -> Option<Self> {
        let has_an_end = expected.case.given().is_some();
        if !expected.case.has_a_code() && !has_an_end {
            return None;
        }
        let line = std::str::from_utf8(&expected.line).ok()?;
        let mut numbers = line
            .split_whitespace()
            .map_while(|word| u32::from_str_radix(word, 16).ok());
        let first = numbers.next()?;
        Some(match (has_an_end, first) {
            (true, 0) => Outcome::Halted,
            (true, 1) => Outcome::Spent,
            (true, 2) => Outcome::Loads,
            (true, 4) => Outcome::Stopped,
            (true, _) => Outcome::Refused(numbers.next()?),
            (false, 0) => Outcome::Accepted,
            (false, code) => Outcome::Refused(code),
        })
    }
}

impl Display for Outcome {
    fn fmt(&self, out: &mut Formatter<'_>) -> Result {
        match self {
            Outcome::Accepted => write!(out, "accepted"),
            Outcome::Halted => write!(out, "halted"),
            Outcome::Spent => write!(out, "spent"),
            Outcome::Loads => write!(out, "loads"),
            Outcome::Stopped => write!(out, "stopped"),
            Outcome::Refused(number) => write!(out, "refused {number}"),
        }
    }
}
