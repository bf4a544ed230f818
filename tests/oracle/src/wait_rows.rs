//! The rows of RULES 28.6 and more of their kind as case lines, each with what it is answered.

mod lists;
mod parts;
mod runs;
mod states;
mod ticks;

use crate::checked_rows::{self, Expected};
use std::io::{Result, Write};

/// Writes the case lines of all rows, or fails at one that is answered otherwise.
pub fn run(out: impl Write) -> Result<bool> {
    let rows = [ticks::rows(), parts::rows(), lists::rows(), runs::rows()];
    checked_rows::write(&rows, out)
}
