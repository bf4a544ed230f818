//! The runner of the step sheet, by a reading of RULES 18 of the harness's own.

mod run;
mod turns;

pub use run::{End, Run, Task};
pub use turns::{HIGHEST_LIMIT, first_bad_record, run, turn};
