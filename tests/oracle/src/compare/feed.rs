//! Writes case lines and tells what is expected.

use crate::answers::Answers;
use crate::case::{Case, Kind};
use crate::line;
use crate::maker::Maker;
use std::io::{Result, Write};
use std::sync::mpsc::Sender;

/// Lines written at once, about.
const BATCH: usize = 64;

/// A case and its expected result line.
pub struct Expected {
    pub case: Case,
    pub line: Vec<u8>,
    /// Where the case stands: the number of the case or list, and of the line in the list.
    pub place: (u64, usize),
}

/// A source of case lines with their expected result lines.
pub struct Feed {
    maker: Maker,
    answers: Answers,
    kind: Kind,
    cases: Vec<Case>,
    numbers: Vec<u32>,
}

impl Feed {
    /// Makes a source for one kind and seed.
    pub fn new(kind: Kind, seed: u64) -> Self {
        Self {
            maker: Maker::new(seed),
            answers: Answers::new(),
            kind,
            cases: Vec::new(),
            numbers: Vec::new(),
        }
    }

    /// Writes so many cases or lists, and sends what is expected just before.
    pub fn run(
        mut self,
        count: u64,
        mut input: impl Write,
        sender: &Sender<Vec<Expected>>,
    ) -> Result<()> {
        let mut lines = Vec::new();
        let mut expected = Vec::new();
        for number in 0..count {
            self.next(number, &mut lines, &mut expected);
            if expected.len() >= BATCH || number + 1 == count {
                if sender.send(std::mem::take(&mut expected)).is_err() {
                    return Ok(());
                }
                input.write_all(&lines)?;
                lines.clear();
            }
        }
        Ok(())
    }

    /// Appends the lines of the next case or list, and what is expected.
    pub fn next(&mut self, number: u64, lines: &mut Vec<u8>, expected: &mut Vec<Expected>) {
        self.cases.clear();
        self.maker.next(self.kind, &mut self.cases);
        for (place, case) in self.cases.iter().enumerate() {
            self.numbers.clear();
            case.put(&mut self.numbers);
            line::put(&self.numbers, lines);
            self.numbers.clear();
            self.answers.check(case);
            if self.answers.answer(case, &mut self.numbers) {
                let mut line = Vec::new();
                line::put(&self.numbers, &mut line);
                expected.push(Expected {
                    case: *case,
                    line,
                    place: (number, place),
                });
            }
        }
    }
}
