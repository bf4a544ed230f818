//! Which neighbours of a sheet may trade places, by a reading of its request of the harness's own.

mod agreement;
mod held;
mod orders;
mod places;
mod registers;

pub use agreement::check;
pub use held::{HELD_ENTRIES, HeldList};
pub use orders::Orders;
pub use places::{listed, neighbours, not_listed, places, sheet_refused};
