//! The rows of RULES 27.7 and 27.8 as case lines, each with what it is answered.

mod full;
mod handed;
mod listed;
mod lists;
mod read;

use crate::checked_rows::{self, Expected};
use std::io::{Result, Write};

/// Writes the case lines of all rows, or fails at one that is answered otherwise.
pub fn run(out: impl Write) -> Result<bool> {
    let rows = [lists::rows(), handed::rows(), full::rows(), read::rows()];
    checked_rows::write(&rows, out)
}
