//! Tells which turns some case lines tell.

use crate::asked::{self, Asked};
use crate::turn;
use crate::turn_answers::TurnAnswers;
use std::io::{Error, Result, Write};

/// Looks for a line that tells each turn, and tells whether there is one for all of them.
pub fn run(cases: &str, answers: &str, mut out: impl Write) -> Result<bool> {
    let lines = asked::read(cases, answers)?;
    let untold = untold(&lines)?;
    for &number in &untold {
        writeln!(out, "told by no line: {}", turn::name(number))?;
    }
    writeln!(
        out,
        "told: {} wrong turns, {} case lines, {} turns told by no line",
        turn::wrong().count(),
        lines.len(),
        untold.len()
    )?;
    out.flush()?;
    Ok(untold.is_empty())
}

/// Gives the turns that no line tells.
pub fn untold(lines: &[Asked]) -> Result<Vec<u32>> {
    let right = &mut TurnAnswers::new(turn::NONE);
    if let Some(place) = asked::first_told(right, lines) {
        let numbers = &lines[place].right;
        return Err(Error::other(format!(
            "an answer that is not the case's: {numbers:x?}"
        )));
    }
    Ok(turn::wrong()
        .filter(|&number| !asked::tell(number, lines))
        .collect())
}
