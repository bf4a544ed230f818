//! The card log, by a reading of its request of the harness's own: the events of a tick, their bytes, and the reader.

mod agreement;
mod event;
mod held;
mod reader;
mod tick;
mod written;

pub use agreement::{check_list, check_tick};
pub use event::{Access, Event, numbers as event_numbers};
pub use held::{HELD_BYTES, HeldLog};
pub use reader::{Reading, read};
pub use tick::{append, bytes, of_tick};
