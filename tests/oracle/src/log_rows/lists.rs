//! Rows that fetch some instructions from a start: what each tick logs.

use super::Expected;
use super::listed::{FEATURES, Listed};
use crate::card_log::{Access, Event};
use crate::offers::{CPUID, HALT, addi, normal};
use crate::rows::Offer;
use Event::{Loaded, Retired, Stored, Written};

/// Bytes of a log that has room enough.
const ENOUGH: u32 = 64;
/// What CPUID writes to R1.
pub const IDENTIFICATION: u32 = 0x5352_4332;

const LD_R5: Offer = normal(0x01, [5, 0, 8]);
const LDB_R5: Offer = normal(0x20, [5, 0, 8]);
const STB_R1: Offer = normal(0x22, [1, 0, 2]);
const ST_R0: Offer = normal(0x02, [0; 3]);
const DIV_R4_R3_R3: Offer = normal(0x1c, [4, 3, 3]);

/// A tick without events, and four of them.
const NONE: Option<&[Event]> = Some(&[]);

/// Makes an access.
pub const fn access(address: u32, width: u32, word: u32) -> Access {
    Access {
        address,
        width,
        word,
    }
}

/// Makes a row with room enough from the start of the log on.
const fn with_room(
    offers: &'static [Offer],
    loaded: u32,
    ticks: &'static [Option<&'static [Event]>],
) -> Listed {
    Listed {
        offers,
        loaded,
        length: ENOUGH,
        free: 0,
        ticks,
    }
}

/// The rows that write registers: R0 is not logged, and CPUID gives R1 before R2.
const WRITING: [Listed; 3] = [
    with_room(
        &[HALT],
        0,
        &[NONE, NONE, NONE, NONE, Some(&[Retired(0)]), NONE],
    ),
    with_room(
        &[addi(3, 0, 7), addi(0, 0, 1), HALT],
        0,
        &[
            NONE,
            NONE,
            NONE,
            NONE,
            Some(&[Retired(0), Written(3, 7)]),
            Some(&[Retired(4)]),
            Some(&[Retired(8)]),
        ],
    ),
    with_room(
        &[CPUID, HALT],
        0,
        &[
            NONE,
            NONE,
            NONE,
            NONE,
            Some(&[Retired(0), Written(1, IDENTIFICATION), Written(2, FEATURES)]),
            Some(&[Retired(4)]),
        ],
    ),
];

/// The rows that load and store: a loaded word is logged whole, a stored one cut, and none behind a HALT that retires.
const ASKING: [Listed; 4] = [
    with_room(
        &[LD_R5, HALT],
        21,
        &[
            NONE,
            NONE,
            NONE,
            Some(&[Loaded(access(8, 4, 21))]),
            Some(&[Retired(0), Written(5, 21)]),
            Some(&[Retired(4)]),
        ],
    ),
    with_room(
        &[LDB_R5, HALT],
        300,
        &[
            NONE,
            NONE,
            NONE,
            Some(&[Loaded(access(8, 1, 300))]),
            Some(&[Retired(0), Written(5, 300)]),
            Some(&[Retired(4)]),
        ],
    ),
    with_room(
        &[addi(1, 0, 300), STB_R1, HALT],
        0,
        &[
            NONE,
            NONE,
            NONE,
            NONE,
            Some(&[Retired(0), Written(1, 300), Stored(access(2, 1, 44))]),
            Some(&[Retired(4)]),
            Some(&[Retired(8)]),
        ],
    ),
    with_room(
        &[HALT, ST_R0],
        0,
        &[NONE, NONE, NONE, NONE, Some(&[Retired(0)]), NONE],
    ),
];

/// The row with a wait, from tick 5 to tick 19: its ticks log what is stored and what retires.
const WAITING: Listed = with_room(
    &[addi(3, 0, 7), ST_R0, DIV_R4_R3_R3, HALT],
    0,
    &[
        NONE,
        NONE,
        NONE,
        NONE,
        Some(&[Retired(0), Written(3, 7), Stored(access(0, 4, 0))]),
        Some(&[Retired(4)]),
        NONE,
        NONE,
        NONE,
        NONE,
        NONE,
        NONE,
        NONE,
        NONE,
        NONE,
        NONE,
        NONE,
        NONE,
        NONE,
        NONE,
        NONE,
        Some(&[Retired(8), Written(4, 1)]),
        Some(&[Retired(12)]),
    ],
);

/// The rows with little room for the HALT of tick 5: 5 bytes, 4, none, and a first free place past the end.
const LITTLE_ROOM: [Listed; 5] = [
    halting(5, 0, &[NONE, NONE, NONE, NONE, Some(&[Retired(0)]), NONE]),
    halting(4, 0, &[NONE, NONE, NONE, NONE, None, None]),
    halting(0, 0, &[NONE, NONE, NONE, NONE, None]),
    halting(8, 9, &[None, None]),
    halting(64, u64::MAX, &[None]),
];

/// Makes a row of a HALT with some bytes lent and a first free place.
const fn halting(length: u32, free: u64, ticks: &'static [Option<&'static [Event]>]) -> Listed {
    Listed {
        offers: &[HALT],
        loaded: 0,
        length,
        free,
        ticks,
    }
}

/// Gives the lines of these rows.
pub fn rows() -> Vec<Expected> {
    let rows = WRITING.iter().chain(&ASKING).chain([&WAITING]);
    rows.chain(&LITTLE_ROOM).flat_map(Listed::lines).collect()
}
