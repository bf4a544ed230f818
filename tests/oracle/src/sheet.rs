//! The step sheet, by a reading of RULES 16 of the harness's own.

mod command;
mod offer;
mod record;

pub use command::{COMMANDS, PAIR, Shape, of as command};
pub use offer::offer;
pub use record::{Record, refuse, special_register, write};

/// Bytes of a record, and of the addresses that it stands for.
pub const RECORD_BYTES: usize = 5;
pub const RECORD_ADDRESSES: u32 = 4;

/// The longest sheet in bytes.
pub const LONGEST: usize = 20_480;

/// Tells whether the length of a sheet is refused.
pub fn length_breaks(length: usize) -> bool {
    !length.is_multiple_of(RECORD_BYTES) || length > LONGEST
}
