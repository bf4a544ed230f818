//! The plain player: one instruction after the other over a sheet, by a reading of RULES 2 to 4, 14, 23
//! and 25 of its own.

mod agreement;
mod arithmetic;
mod effect;
mod normal;
mod played;
mod short;
mod turns;

pub use agreement::check;
pub use played::{End, Played};
pub use turns::play;
