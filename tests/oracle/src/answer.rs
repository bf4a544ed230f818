//! Answers case lines as the other program should.

use crate::answers::Answers;
use crate::case::Case;
use crate::line;
use std::io::{BufRead, Error, Result, Write};

/// Reads case lines to the end of the input and writes the result lines.
pub fn run(input: impl BufRead, mut output: impl Write) -> Result<()> {
    let mut answers = Answers::new();
    let mut numbers = Vec::new();
    let mut bytes = Vec::new();
    for text in input.lines() {
        let text = text?;
        let case = line::read(&text).and_then(|numbers| Case::read(&numbers));
        let case = case.ok_or_else(|| Error::other(format!("no case: {text}")))?;
        numbers.clear();
        answers.check(&case);
        if answers.answer(&case, &mut numbers) {
            bytes.clear();
            line::put(&numbers, &mut bytes);
            output.write_all(&bytes)?;
        }
    }
    output.flush()
}
