//! The wrong turns, and the one that is taken.

use crate::case::Kind;
use std::cell::Cell;

/// A wrong turn, and the kinds of cases that must tell it or must give the same answers.
pub struct Turn {
    pub name: &'static str,
    pub told_by: &'static [&'static str],
    pub same_for: &'static [&'static str],
}

/// Every turn; the first has the number 1.
const TURNS: &[Turn] = include!(concat!(env!("OUT_DIR"), "/table.rs"));

/// The number of the right way.
pub const NONE: u32 = 0;

thread_local! {
    static TAKEN: Cell<u32> = const { Cell::new(NONE) };
}

/// Gives the number of the turn that is taken; the switches in the copied files ask for it.
pub fn taken() -> u32 {
    TAKEN.get()
}

/// Takes a turn from now on.
pub fn take(number: u32) {
    TAKEN.set(number);
}

/// Gives the turns with their numbers.
pub fn all() -> impl Iterator<Item = (u32, &'static Turn)> {
    (1..).zip(TURNS)
}

/// Gives the numbers of the turns that must be told.
pub fn wrong() -> impl Iterator<Item = u32> {
    let must_be_told = all().filter(|(_, turn)| !turn.told_by.is_empty());
    must_be_told.map(|(number, _)| number)
}

/// Gives the turn with a number.
pub fn of(number: u32) -> &'static Turn {
    &TURNS[number as usize - 1]
}

/// Gives the kinds of cases that must tell the turn with a number.
pub fn told_by(number: u32) -> impl Iterator<Item = Kind> + Clone {
    of(number)
        .told_by
        .iter()
        .filter_map(|name| Kind::named(name))
}

/// Gives the name of a turn.
pub fn name(number: u32) -> &'static str {
    of(number).name
}
