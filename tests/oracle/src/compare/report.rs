//! Counts answers and shows the first that differ.

use super::feed::Expected;
use super::outcome::Outcome;
use crate::case::{Kind, result_names};
use crate::line;
use std::collections::BTreeMap;
use std::fmt::Write;
use std::time::Instant;

/// Mismatches that are shown whole.
const SHOWN: u64 = 5;

/// What came of one run.
pub struct Report {
    kind: Kind,
    lines: u64,
    outcomes: BTreeMap<Outcome, u64>,
    mismatches: u64,
    notes: Vec<String>,
    began: Instant,
}

impl Report {
    /// Begins with nothing counted.
    pub fn new(kind: Kind) -> Self {
        Self {
            kind,
            lines: 0,
            outcomes: BTreeMap::new(),
            mismatches: 0,
            notes: Vec::new(),
            began: Instant::now(),
        }
    }

    /// Counts one answer and keeps it if it differs.
    pub fn count(&mut self, expected: &Expected, got: &[u8]) {
        self.lines += 1;
        if let Some(outcome) = Outcome::of(expected) {
            *self.outcomes.entry(outcome).or_default() += 1;
        }
        if expected.line != got {
            self.mismatches += 1;
            if self.mismatches <= SHOWN {
                self.notes.push(difference(expected, got));
            }
        }
    }

    /// Notes a trouble that is no single answer's.
    pub fn note(&mut self, trouble: String) {
        self.mismatches += 1;
        self.notes.push(trouble);
    }

    /// Tells whether every answer was as expected.
    pub fn is_clean(&self) -> bool {
        self.mismatches == 0
    }

    /// Prints the counts in one line, then what differs.
    pub fn print(&self) {
        let mut line = format!("{}: {} answers", self.kind.name(), self.lines);
        for (outcome, count) in &self.outcomes {
            let _ = write!(line, ", {outcome} {count}");
        }
        let seconds = self.began.elapsed().as_secs_f64();
        println!("{line}, mismatches {}, {seconds:.1} s", self.mismatches);
        for note in &self.notes {
            println!("{note}");
        }
    }
}

/// Tells a case, both answers and the names of the numbers that differ.
fn difference(expected: &Expected, got: &[u8]) -> String {
    let mut numbers = Vec::new();
    expected.case.put(&mut numbers);
    let mut case = Vec::new();
    line::put(&numbers, &mut case);
    let text = |bytes: &[u8]| String::from_utf8_lossy(bytes).trim_end().to_string();
    let (number, place) = expected.place;
    format!(
        "mismatch in number {number}, line {place}\n  case {}\n  expected {}\n  got {}\n  differing {}",
        text(&case),
        text(&expected.line),
        text(got),
        differing(expected, &text(got)).join(" ")
    )
}

/// Names the numbers that differ, each with what was expected and what was got.
fn differing(expected: &Expected, got: &str) -> Vec<String> {
    let line = String::from_utf8_lossy(&expected.line);
    let wanted: Vec<&str> = line.trim_end().split(' ').collect();
    let got: Vec<&str> = got.split(' ').collect();
    let names = result_names(&expected.case);
    (0..wanted.len().max(got.len()))
        .filter(|&place| wanted.get(place) != got.get(place))
        .map(|place| {
            let name = names.get(place).map_or("too-many", String::as_str);
            let show =
                |word: Option<&&str>| word.map_or("none".to_string(), |word| word.to_string());
            format!(
                "{name}({}/{})",
                show(wanted.get(place)),
                show(got.get(place))
            )
        })
        .collect()
}
