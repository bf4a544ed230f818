//! Rows as case lines, each with the answer that is expected.

use crate::answers::Answers;
use crate::case::Case;
use crate::sample;
use std::io::{Error, Result, Write};

/// A row of a table.
pub trait CheckedRow {
    /// Gives its case.
    fn case(&self) -> &Case;

    /// Compares the answer to its case with the one expected.
    fn compare(&self, answers: &mut Answers) -> Result<()>;
}

/// Writes the case lines of all rows, or fails at one that is answered otherwise.
pub fn write<R: CheckedRow>(tables: &[Vec<R>], mut out: impl Write) -> Result<bool> {
    let mut answers = Answers::new();
    for row in tables.iter().flatten() {
        answers.check(row.case());
        row.compare(&mut answers)?;
        sample::write_cases(&[*row.case()], &mut out)?;
    }
    out.flush()?;
    Ok(true)
}

/// A case, and what its result line begins with; nothing where it has none.
pub struct Expected {
    pub case: Case,
    pub begins: Vec<u32>,
}

impl CheckedRow for Expected {
    fn case(&self) -> &Case {
        &self.case
    }

    fn compare(&self, answers: &mut Answers) -> Result<()> {
        let mut numbers = Vec::new();
        answers.answer(&self.case, &mut numbers);
        let Self { case, begins } = self;
        if numbers.starts_with(begins) && numbers.is_empty() == begins.is_empty() {
            return Ok(());
        }
        Err(Error::other(format!(
            "rows: {begins:x?} expected, {numbers:x?} answered to {case:?}"
        )))
    }
}
