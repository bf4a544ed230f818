//! The line of a listing that says where its ticks come from.

use super::{Checked, Listing, holds};
use crate::runner::End;

/// Checks what the line says of the run of an example.
pub fn of_a_run(listing: &Listing) -> Checked {
    let line = line(listing)?;
    let played = &listing.played;
    let Some(last) = played.steps.last() else {
        let none = "none, as the sheet is tested before the first tick.";
        return holds(line == none, || format!("should say: # Ticks: {none}"));
    };
    let (formula, tick) = formula(listing);
    holds(tick == last.tick, || {
        format!("the rule gives tick {tick}, the run {}", last.tick)
    })?;
    let (before, behind) = line.split_once(&formula).unwrap_or((line, "?"));
    holds(behind.starts_with([';', '.']), || {
        format!("should say: {formula}")
    })?;
    let count = played.steps.len() as u32;
    let named = ["is instruction ", "is number "].map(|words| number_behind(before, words));
    holds(named.contains(&Some(count)), || {
        format!("should say: is instruction {}", grouped(count))
    })?;
    let ends_early = matches!(played.end, End::Loads | End::Refused(_));
    let done = number_behind(behind, ", so ");
    holds(done == ends_early.then_some(played.ticks), || {
        format!("should say: so {} are done", played.ticks)
    })
}

/// Checks what the line says of a round of a bench loop.
pub fn of_a_round(listing: &Listing) -> Checked {
    let mut steps = listing.played.steps.iter().rev();
    let last = steps.next().ok_or("does nothing")?;
    let (place, before) = (1..)
        .zip(steps)
        .find(|(_, step)| step.place == last.place)
        .ok_or("is no loop")?;
    let ticks = last.tick - before.tick;
    let should = format!("{place} instructions and {ticks} ticks a round.");
    holds(line(listing)? == should, || {
        format!("should say: # Ticks: {should}")
    })
}

/// Gives what the line says.
fn line(listing: &Listing) -> Result<&str, String> {
    let lines = listing.text.lines();
    let mut lines = lines.filter_map(|line| line.strip_prefix("# Ticks: "));
    match (lines.next(), lines.next()) {
        (Some(line), None) => Ok(line),
        _ => Err("should have one line that begins with: # Ticks: ".to_string()),
    }
}

/// Writes the rule with its counts, terms of 0 left out, and gives its value.
fn formula(listing: &Listing) -> (String, u32) {
    let count = listing.played.steps.len() as u32;
    let mut symbols = "N + 4".to_string();
    let mut numbers = format!("{} + 4", grouped(count));
    let mut tick = count + 4;
    let terms = [
        ("2M", "2*", 2),
        ("15D", "15*", 15),
        ("L", "", 1),
        ("2R", "2*", 2),
    ];
    for ((symbol, times, factor), count) in terms.into_iter().zip(listing.played.counts()) {
        if count > 0 {
            symbols += &format!(" + {symbol}");
            numbers += &format!(" + {times}{}", grouped(count));
            tick += factor * count;
        }
    }
    (format!("{symbols} = {numbers} = {}", grouped(tick)), tick)
}

/// Writes a number with a comma before every three digits.
fn grouped(number: u32) -> String {
    match number / 1_000 {
        0 => number.to_string(),
        thousands => format!("{},{:03}", grouped(thousands), number % 1_000),
    }
}

/// Gives the number, which may have commas between its digits, that stands behind some words.
fn number_behind(line: &str, words: &str) -> Option<u32> {
    let (_, behind) = line.split_once(words)?;
    let number = behind
        .split(|c: char| !c.is_ascii_digit() && c != ',')
        .next()?;
    number.replace(',', "").parse().ok()
}
