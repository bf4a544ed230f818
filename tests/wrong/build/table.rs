//! The table of the turns for the program.

use crate::turn::Turn;

/// Gives the table as an expression.
pub fn of(turns: &[Turn]) -> String {
    let rows: String = turns.iter().map(row).collect();
    format!("&[\n{rows}]\n")
}

/// Gives one row.
fn row(turn: &Turn) -> String {
    let Turn {
        name,
        told_by,
        same_for,
        ..
    } = turn;
    format!("Turn {{ name: {name:?}, told_by: &{told_by:?}, same_for: &{same_for:?} }},\n")
}
