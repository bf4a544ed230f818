//! Rows that read one event of a log that is handed in.

use super::Expected;
use super::listed::with_result;
use super::lists::access;
use crate::card_log::{Event, event_numbers};
use crate::case::Case;
use crate::refusals::{BAD_ENTRY, ENTRY_CUT_SHORT, NONE};
use crate::rows::{LOG_BYTES, ReadLog, words_of};
use Event::{Loaded, Retired, Stored, Written};

/// The bytes of a log, a place, the code, the event or none, and the next place.
type Read = (&'static [u8], u64, u32, Option<Event>, u64);

/// The end: at the log's length and past it; the place stays.
const ENDS: [Read; 4] = [
    (&[], 0, NONE, None, 0),
    (&[0x80], 9, NONE, None, 9),
    (&[0x80], 1, NONE, None, 1),
    (&[0x80, 0, 0, 0, 4], u64::MAX, NONE, None, u64::MAX),
];

/// Entries that are refused; the place stays.
const REFUSED: [Read; 14] = [
    (&[0x7f], 0, BAD_ENTRY, None, 0),
    (&[0x84, 0, 0, 0, 0, 0], 0, BAD_ENTRY, None, 0),
    (&[0x80, 0, 0, 0], 0, ENTRY_CUT_SHORT, None, 0),
    (&[0x81], 0, ENTRY_CUT_SHORT, None, 0),
    (&[0x81, 0], 0, ENTRY_CUT_SHORT, None, 0),
    (&[0x81, 32, 0, 0, 0], 0, ENTRY_CUT_SHORT, None, 0),
    (&[0x81, 0, 0, 0, 0, 0], 0, BAD_ENTRY, None, 0),
    (&[0x81, 32, 0, 0, 0, 0], 0, BAD_ENTRY, None, 0),
    (&[0x82, 0, 0, 0, 0, 3, 0, 0, 0], 0, ENTRY_CUT_SHORT, None, 0),
    (&[0x82, 0, 0, 0, 0, 3, 0, 0, 0, 0], 0, BAD_ENTRY, None, 0),
    (&[0x83, 0, 0, 0, 0, 3, 0, 0, 0, 0], 0, BAD_ENTRY, None, 0),
    (&[0x83, 0, 0, 0, 0, 5, 0, 0, 0, 0], 0, BAD_ENTRY, None, 0),
    (&[0x83, 0, 0, 0, 0, 8, 0, 0, 0, 0], 0, BAD_ENTRY, None, 0),
    (&[0x80, 0, 0, 0, 4, 0xff], 5, BAD_ENTRY, None, 5),
];

/// Entries that are read.
const EVENTS: [Read; 6] = [
    (
        &[0xff, 0x82, 0, 0, 1, 2, 0, 0, 0, 0, 5],
        1,
        NONE,
        Some(Loaded(access(258, 0, 5))),
        11,
    ),
    (
        &[0x83, 1, 2, 3, 4, 2, 5, 6, 7, 8],
        0,
        NONE,
        Some(Stored(access(0x0102_0304, 2, 0x0506_0708))),
        10,
    ),
    (
        &[0x82, 0, 0, 0, 0, 4, 0, 0, 0, 1],
        0,
        NONE,
        Some(Loaded(access(0, 4, 1))),
        10,
    ),
    (&[0x80, 1, 2, 3, 4], 0, NONE, Some(Retired(0x0102_0304)), 5),
    (
        &[0x81, 1, 9, 8, 7, 6],
        0,
        NONE,
        Some(Written(1, 0x0908_0706)),
        6,
    ),
    (&[0x81, 31, 0, 0, 0, 0], 0, NONE, Some(Written(31, 0)), 6),
];

/// Gives the lines of these rows.
pub fn rows() -> Vec<Expected> {
    ENDS.iter()
        .chain(&REFUSED)
        .chain(&EVENTS)
        .map(line)
        .collect()
}

/// Makes the line of a row.
fn line(&(bytes, place, code, event, next): &Read) -> Expected {
    let mut log = [0xff; LOG_BYTES];
    log[..bytes.len()].copy_from_slice(bytes);
    let case = Case::Reads(ReadLog {
        length: bytes.len() as u32,
        place,
        words: words_of(&log),
    });
    let [command, first, second, third] = event_numbers(event);
    with_result(case, &[code, command, first, second, third], next)
}
