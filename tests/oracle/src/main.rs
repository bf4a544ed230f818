//! Command line of the oracle.

use oracle::command_line::{self, kind, number, out};
use std::io::{Error, Result, stdin};
use std::process::ExitCode;

const USAGE: &str = "usage:
  oracle listings
  oracle origin-rows
  oracle log-rows
  oracle wait-rows
  oracle trade-rows
  oracle trade-pairs COUNT SEED
  oracle tickrun
  oracle compare PROGRAM KIND COUNT SEED
  oracle cases KIND COUNT SEED
  oracle sample COUNT SEED
  oracle answer";

/// Runs the subcommand named on the command line and ends with 1 if something differs.
fn main() -> ExitCode {
    command_line::main("oracle", run)
}

/// Runs one subcommand and tells whether all was well.
fn run(words: &[&str]) -> Result<bool> {
    match *words {
        ["listings"] => oracle::listing::run(out()),
        ["origin-rows"] => oracle::origin_rows::run(out()),
        ["log-rows"] => oracle::log_rows::run(out()),
        ["wait-rows"] => oracle::wait_rows::run(out()),
        ["trade-rows"] => oracle::trade_rows::run(out()),
        ["trade-pairs", count, seed] => {
            oracle::trade_pairs::run(number(count)?, number(seed)?, out())
        }
        ["tickrun"] => oracle::tickrun::run(stdin().lock(), out()).map(|()| true),
        ["answer"] => oracle::answer::run(stdin().lock(), out()).map(|()| true),
        ["compare", program, of, count, seed] => {
            oracle::compare::run(program, kind(of)?, number(count)?, number(seed)?)
        }
        ["cases", of, count, seed] => {
            oracle::sample::cases(kind(of)?, number(count)?, number(seed)?, out()).map(|()| true)
        }
        ["sample", count, seed] => {
            oracle::sample::mixed(number(count)?, number(seed)?, out()).map(|()| true)
        }
        _ => Err(Error::other(USAGE)),
    }
}
