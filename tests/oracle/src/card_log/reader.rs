//! The reader: one event of a log at a place.

use super::event::{self, Access, Event, LOADED, RETIRED, STORED, WRITTEN};
use crate::refusals::{BAD_ENTRY, ENTRY_CUT_SHORT, NONE};
use crate::row::Row;

/// The widths of a load or store.
const WIDTHS: [u8; 4] = [0, 1, 2, 4];

/// What reading gives: a refusal or none, an event or the end, and the next place.
#[derive(Debug, Clone, Copy, PartialEq, Eq)]
pub struct Reading {
    pub code: u32,
    pub event: Option<Event>,
    pub next: u64,
}

impl Reading {
    /// Appends the numbers of the result line.
    pub fn put(&self, out: &mut Vec<u32>) {
        self.code.put(out);
        event::numbers(self.event).put(out);
        self.next.put(out);
    }
}

/// Reads one event; at the end and at a refusal the place is the given one.
pub fn read(log: &[u8], place: u64) -> Reading {
    let unmoved = |code| Reading {
        code,
        event: None,
        next: place,
    };
    if place >= log.len() as u64 {
        return unmoved(NONE);
    }
    let entry = &log[place as usize..];
    match refused(entry) {
        NONE => Reading {
            code: NONE,
            event: Some(event_of(entry)),
            next: place + size(entry[0]) as u64,
        },
        code => unmoved(code),
    }
}

/// Refuses an unknown command, then an entry that the log's end cuts, then a register or width that is out of bounds.
fn refused(entry: &[u8]) -> u32 {
    let size = size(entry[0]);
    if size == 0 {
        return BAD_ENTRY;
    }
    if entry.len() < size {
        return ENTRY_CUT_SHORT;
    }
    if number_breaks(entry) {
        return BAD_ENTRY;
    }
    NONE
}

/// Gives the bytes of an entry by its command, 0 for an unknown one.
fn size(command: u8) -> usize {
    match command {
        RETIRED => 1 + 4,
        WRITTEN => 1 + 1 + 4,
        LOADED | STORED => 1 + 4 + 1 + 4,
        _ => 0,
    }
}

/// Tells whether the register or the width of a whole entry is out of bounds.
fn number_breaks(entry: &[u8]) -> bool {
    match entry[0] {
        WRITTEN => !(1..=31).contains(&entry[1]),
        LOADED | STORED => !WIDTHS.contains(&entry[5]),
        _ => false,
    }
}

/// Gives the event of an entry.
fn event_of(entry: &[u8]) -> Event {
    match entry[0] {
        RETIRED => Event::Retired(word(entry, 1)),
        WRITTEN => Event::Written(entry[1].into(), word(entry, 2)),
        LOADED => Event::Loaded(access(entry)),
        _ => Event::Stored(access(entry)),
    }
}

/// Gives what a load or store names.
fn access(entry: &[u8]) -> Access {
    Access {
        address: word(entry, 1),
        width: entry[5].into(),
        word: word(entry, 6),
    }
}

/// Gives the word whose high byte is at a place.
fn word(entry: &[u8], at: usize) -> u32 {
    let bytes = [entry[at], entry[at + 1], entry[at + 2], entry[at + 3]];
    u32::from_be_bytes(bytes)
}
