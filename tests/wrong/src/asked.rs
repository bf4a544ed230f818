//! Case lines with their right answers, and the first of them that tells a turn.

use crate::case::Case;
use crate::line;
use crate::turn;
use crate::turn_answers::TurnAnswers;
use std::fs;
use std::io::{Error, Result};

/// A case and the numbers of its right answer, none where it has no result line.
pub struct Asked {
    pub case: Case,
    pub right: Vec<u32>,
}

/// Asks the right way about cases.
pub fn answered(cases: Vec<Case>) -> Vec<Asked> {
    let mut right = TurnAnswers::new(turn::NONE);
    let ask = |case| Asked {
        case,
        right: right.answer(&case).unwrap_or_default().to_vec(),
    };
    cases.into_iter().map(ask).collect()
}

/// Reads the case lines of a file; a line that is no case gives nothing.
pub fn read_cases(path: &str) -> Result<Vec<Option<Case>>> {
    let case = |line: &str| line::read(line).and_then(|numbers| Case::read(&numbers));
    Ok(text(path)?.lines().map(case).collect())
}

/// Reads case lines and their answers, without the lines that are no case.
pub fn read(cases: &str, answers: &str) -> Result<Vec<Asked>> {
    let text = text(answers)?;
    let mut answers = text
        .lines()
        .map(|answer| line::read(answer).unwrap_or_default());
    let mut all = Vec::new();
    for case in read_cases(cases)? {
        let has_a_result = case.is_none_or(|case| case.has_a_result());
        let right = if has_a_result { answers.next() } else { None };
        all.extend(case.map(|case| Asked {
            case,
            right: right.unwrap_or_default(),
        }));
    }
    Ok(all)
}

/// Reads a file.
fn text(path: &str) -> Result<String> {
    fs::read_to_string(path).map_err(|error| Error::other(format!("{path}: {error}")))
}

/// Tells whether some line tells a turn; lines of the kinds that must tell it are asked before all lines.
pub fn tell(number: u32, lines: &[Asked]) -> bool {
    let mut answers = TurnAnswers::new(number);
    let is_of_its_kinds = |line: &&Asked| turn::told_by(number).any(|kind| kind.has(&line.case));
    let mut likely = lines.iter().filter(is_of_its_kinds);
    likely.any(|line| answers.answer(&line.case) != Some(&line.right))
        || first_told(&mut TurnAnswers::new(number), lines).is_some()
}

/// Finds the first of some lines to which a turn gives another answer than the right one.
pub fn first_told(answers: &mut TurnAnswers, lines: &[Asked]) -> Option<usize> {
    lines
        .iter()
        .position(|line| answers.answer(&line.case) != Some(&line.right))
}
