//! The remark behind a record: the instructions of a pair, and where an instruction leads.

use super::{Checked, Listing, holds, text};
use crate::rows::{NORMAL, SHORT};
use crate::sheet::PAIR;

/// Checks the remark; that of a pair has a part for each instruction, which begins with its text.
pub fn check(listing: &Listing, record: &[u8], pc: u32, remark: &str) -> Checked {
    let &[PAIR, a, b, c, d] = record else {
        return way(listing, &text::of(record), (pc, NORMAL), remark);
    };
    let (first, second) = remark.split_once("; ").unwrap_or((remark, ""));
    for (halfword, pc, part) in [([a, b], pc, first), ([c, d], pc + 2, second)] {
        let text = text::of_short(u16::from_be_bytes(halfword));
        let rest = part.strip_prefix(&text).unwrap_or("?");
        holds(rest.is_empty() || rest.starts_with([' ', ':']), || {
            format!("the remark on {pc:04X} should begin with: {text}")
        })?;
        way(listing, &text, (pc, SHORT), part)?;
    }
    Ok(())
}

/// Checks the address behind "to", by the offset or else by the run, and the one behind "R31 becomes".
fn way(listing: &Listing, text: &str, place: (u32, u32), remark: &str) -> Checked {
    let (pc, mode) = place;
    let next = if mode == NORMAL { pc + 4 } else { pc + 2 };
    let link = address_behind(remark, "R31 becomes ").unwrap_or(next);
    holds(link == next, || format!("{pc:04X}: R31 becomes {next:04X}"))?;
    let named = address_behind(remark, "to ");
    if let Some(offset) = offset(text) {
        let target = next.wrapping_add_signed(offset);
        return holds(named == Some(target), || {
            format!("{pc:04X} leads to {target:04X}")
        });
    }
    let mut ways = listing.played.ways_from(place).peekable();
    holds(
        named.is_none_or(|named| ways.peek().is_some() && ways.all(|way| way == named)),
        || format!("{pc:04X} does not lead where the remark says"),
    )
}

/// Gives the offset of a jump or branch that has one, and 0 for RET.
fn offset(text: &str) -> Option<i32> {
    let (name, operands) = text.split_once(' ').unwrap_or((text, "0"));
    let with_offset = [
        "BEQ", "BNE", "BZ", "BNZ", "JMP", "JMPS", "JAL", "JALS", "RET",
    ];
    let last = operands.rsplit(',').next()?;
    with_offset.contains(&name).then(|| last.parse().ok())?
}

/// Gives the first address of four digits behind some words.
fn address_behind(remark: &str, words: &str) -> Option<u32> {
    remark.split(words).skip(1).find_map(|part| {
        let digits = part.split(|c: char| !c.is_alphanumeric()).next()?;
        (digits.len() == 4).then(|| u32::from_str_radix(digits, 16).ok())?
    })
}
