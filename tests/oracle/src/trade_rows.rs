//! Rows of the check for trades as case lines, each with what it is answered.

mod commands;
mod lines;
mod long;
mod pairs;
mod refused;

use crate::checked_rows;
use std::io::{Result, Write};

/// Writes the case lines of all rows, or fails at one that is answered otherwise.
pub fn run(out: impl Write) -> Result<bool> {
    let rows = [
        pairs::rows(),
        commands::rows(),
        refused::rows(),
        long::rows(),
    ];
    checked_rows::write(&rows, out)
}
