//! Compares another program's answers with the expected ones.

mod feed;
mod outcome;
mod report;

use crate::case::Kind;
use feed::{Expected, Feed};
use report::Report;
use std::io::{BufRead, BufReader, Error, Result};
use std::process::{Child, Command, Stdio};
use std::sync::mpsc::{Receiver, channel};
use std::thread;

/// Asks a program so many cases of a kind, prints what came of it and tells whether all was well.
pub fn run(program: &str, kind: Kind, count: u64, seed: u64) -> Result<bool> {
    let mut child = spawn(program)?;
    let input = child.stdin.take().expect("a piped input");
    let output = child.stdout.take().expect("a piped output");
    let (sender, receiver) = channel();
    let feeder = thread::spawn(move || Feed::new(kind, seed).run(count, input, &sender));
    let mut report = Report::new(kind);
    if !check(&receiver, &mut BufReader::new(output), &mut report)? {
        child.kill()?;
    }
    let fed = feeder.join().expect("the feeding thread ends by itself");
    let status = child.wait()?;
    if !status.success() {
        report.note(format!("the program ended with {status}"));
    }
    if let Err(error) = fed {
        report.note(format!("the program stopped reading: {error}"));
    }
    report.print();
    Ok(report.is_clean())
}

/// Starts the program; its name and arguments are separated by spaces.
fn spawn(program: &str) -> Result<Child> {
    let mut words = program.split_whitespace();
    let name = words.next().ok_or_else(|| Error::other("no program"))?;
    Command::new(name)
        .args(words)
        .stdin(Stdio::piped())
        .stdout(Stdio::piped())
        .spawn()
}

/// Reads the program's lines and reports where they differ, then tells whether it may go on.
fn check(
    receiver: &Receiver<Vec<Expected>>,
    output: &mut impl BufRead,
    report: &mut Report,
) -> Result<bool> {
    let mut waiting = Vec::new().into_iter();
    let mut got = Vec::new();
    while output.read_until(b'\n', &mut got)? != 0 {
        if waiting.len() == 0 {
            waiting = receiver.try_recv().unwrap_or_default().into_iter();
        }
        let Some(expected) = waiting.next() else {
            report.note("the program answers more than it is asked".to_string());
            return Ok(false);
        };
        report.count(&expected, &got);
        got.clear();
    }
    let missing = waiting.count() + receiver.iter().flatten().count();
    if missing > 0 {
        report.note(format!("the program leaves {missing} cases unanswered"));
    }
    Ok(true)
}
