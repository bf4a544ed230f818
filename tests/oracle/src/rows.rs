//! The state and its parts as plain numbers, in the order of the case lines.

mod instruction;
mod latch;
mod list;
mod log;
mod origin;
mod special;
mod state;
mod waits;

pub use instruction::{Decoded, Offer, Raw};
pub use latch::{ExMem, IdEx, IfId, MemWb};
pub use list::LentList;
pub use log::{LOG_BYTES, LentLog, LogWords, ReadLog, bytes_of, words_of};
pub use origin::{Origin, Origins};
pub use special::Special;
pub use state::{Answer, Begin, Given, Input, Redirect, Seen, State};
pub use waits::Waits;

/// Numbers of the two modes.
pub const NORMAL: u32 = 0;
pub const SHORT: u32 = 1;

/// Numbers of what a tick asks of the memory.
pub const LOAD: u32 = 1;
pub const STORE: u32 = 2;
