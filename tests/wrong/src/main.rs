//! Tells the wrong turns from the right way, in one program that holds all of them.

#![allow(clippy::all, unused, unused_parens)]

#[warn(clippy::all, unused)]
mod asked;
#[warn(clippy::all, unused)]
mod choose;
#[warn(clippy::all, unused)]
mod group;
#[warn(clippy::all, unused)]
mod self_test;
#[warn(clippy::all, unused)]
mod told;
#[warn(clippy::all, unused)]
mod turn;
#[warn(clippy::all, unused)]
mod turn_answers;

// The oracle as its lib.rs has it, from the copy with the switches.
include!(concat!(env!("OUT_DIR"), "/tests/oracle/src/lib.rs"));

use command_line::{number, out};
use std::io::{Error, Result};
use std::process::ExitCode;

const USAGE: &str = "usage:
  wrong self-test COUNT SEED [PART OF A NAME]
  wrong told CASES ANSWERS
  wrong choose CASES COUNT SEED";

/// Runs the subcommand named on the command line and ends with 1 if some turn is not told.
fn main() -> ExitCode {
    std::panic::set_hook(Box::new(|_| {}));
    command_line::main("wrong", run)
}

/// Runs one subcommand and tells whether all was well.
fn run(words: &[&str]) -> Result<bool> {
    match *words {
        ["self-test", count, seed] => self_test::run(number(count)?, number(seed)?, "", out()),
        ["self-test", count, seed, part] => {
            self_test::run(number(count)?, number(seed)?, part, out())
        }
        ["told", cases, answers] => told::run(cases, answers, out()),
        ["choose", cases, count, seed] => choose::run(cases, number(count)?, number(seed)?, out()),
        _ => Err(Error::other(USAGE)),
    }
}
