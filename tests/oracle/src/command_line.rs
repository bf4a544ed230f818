//! The words of a command line, and how a program that reads them ends.

use crate::case::Kind;
use std::io::{BufWriter, Error, Result, Write, stdout};
use std::process::ExitCode;

/// Runs a subcommand on the words behind the program's name and ends with 1 if not all was well, with 2 on an error.
pub fn main(program: &str, run: fn(&[&str]) -> Result<bool>) -> ExitCode {
    let words: Vec<String> = std::env::args().skip(1).collect();
    let words: Vec<&str> = words.iter().map(String::as_str).collect();
    match run(&words) {
        Ok(true) => ExitCode::SUCCESS,
        Ok(false) => ExitCode::FAILURE,
        Err(error) => {
            eprintln!("{program}: {error}");
            ExitCode::from(2)
        }
    }
}

/// Gives standard output with a buffer.
pub fn out() -> impl Write {
    BufWriter::new(stdout().lock())
}

/// Reads a decimal number.
pub fn number(word: &str) -> Result<u64> {
    word.parse()
        .map_err(|_| Error::other(format!("no number: {word}")))
}

/// Finds a kind of cases.
pub fn kind(word: &str) -> Result<Kind> {
    Kind::named(word).ok_or_else(|| Error::other(format!("no kind of cases: {word}")))
}
